"""Both hashes compared with python3-xxhash and published answers; arguments, attributes, long inputs, and buffers."""
import array
import ctypes
import doctest
import importlib.metadata
import mmap

import pytest
import sketch_hash
from helpers import FORMS, KINDS, ONE_CALL, ZEROS, waits, zeros
from sketch_hash import murmur3_x64_128, xxh64

numpy = pytest.importorskip("numpy")
xxhash = pytest.importorskip("xxhash")

FOX = b"The quick brown fox jumps over the lazy dog"
DATA = bytes(range(240))


@pytest.mark.parametrize("data, seed, of_xxh64, of_murmur", [
    (FOX, 0, "0b242d361fda71bc", "e34bbc7bbc071b6c7a433ca9c49a9347"),
    (b"\xa1\xd8\x2b", 0xCDDE8D516301BBFC, "937800ca51e4a6d8", "72d4dcbfd199ad6f5170f4d9e50bb254"),
], ids=["fox", "wide seed"])
def test_hashes_are_the_published_ones(data, seed, of_xxh64, of_murmur):
    assert xxh64(data, seed).hexdigest() == of_xxh64
    assert murmur3_x64_128(data, seed).hexdigest() == of_murmur


def test_the_examples_of_the_module_are_right():
    assert doctest.testmod(sketch_hash).failed == 0


@pytest.mark.parametrize("form", FORMS)
def test_each_form_is_that_of_xxhash(form):
    for length in range(100):
        data, seed = (FOX * 3)[:length], 2**64 - 1 - length
        expected = getattr(xxhash.xxh64(data, seed), form)()
        assert getattr(xxh64(data, seed), form)() == getattr(sketch_hash, f"xxh64_{form}")(data, seed) == expected


def test_each_form_of_murmur_is_of_the_same_words():
    for length in range(100):
        data, seed = (FOX * 3)[:length], 2**64 - 1 - length
        hasher = murmur3_x64_128(data, seed)
        number = hasher.intdigest()
        assert sketch_hash.murmur3_x64_128_intdigest(data, seed) == number
        assert hasher.digest() == sketch_hash.murmur3_x64_128_digest(data, seed) == number.to_bytes(16, "big")
        assert hasher.hexdigest() == sketch_hash.murmur3_x64_128_hexdigest(data, seed) == f"{number:032x}"
        words = (number >> 64).to_bytes(8, "little") + (number % 2**64).to_bytes(8, "little")
        assert hasher.digest_bytes() == sketch_hash.murmur3_x64_128_bytes(data, seed) == words


def test_seed_hashes_are_those_of_datasketches():
    seeds = {0: 50123, 1: 50250, 2: 49320, 3: 35596, 42: 32248, 123: 1462, 9001: 37836}
    assert {seed: sketch_hash.seed_hash(seed) for seed in seeds} == seeds
    with pytest.raises(ValueError, match="^the hash of the seed 50541 is 0, .*: choose another seed$"):
        sketch_hash.seed_hash(50541)
    for seed, error in ((-1, OverflowError), (2**64, OverflowError), ("7", TypeError)):
        with pytest.raises(error):
            sketch_hash.seed_hash(seed)


def test_attributes_are_those_of_xxhash():
    ours, theirs, murmur = xxh64(seed=7), xxhash.xxh64(seed=7), murmur3_x64_128(seed=7)
    for name in ("name", "digest_size", "digestsize", "block_size", "seed"):
        assert getattr(ours, name) == getattr(theirs, name)
    assert (murmur.name, murmur.digest_size, murmur.digestsize, murmur.block_size) == ("MURMUR3_X64_128", 16, 16, 16)
    assert repr(ours) == f"<sketch_hash.xxh64 with seed 7, now {ours.hexdigest()}>"
    for subject, name in ((murmur, "seed"), *((subject, "other") for subject in (ours, murmur, sketch_hash.BloomFilter(32)))):
        with pytest.raises(AttributeError):
            setattr(subject, name, 8)


def test_the_package_has_its_version_and_licence():
    assert sketch_hash.algorithms_available == {"xxh64", "murmur3_x64_128"}
    metadata = importlib.metadata.metadata("sketch-hash")
    assert metadata["Version"] == sketch_hash.__version__
    assert metadata.get_all("License-File") == ["LICENSE", "NOTICE"]


def test_calls_take_arguments_by_name():
    pair = sketch_hash.column([FOX])
    assert sketch_hash.BloomFilter.for_keys(keys=10, one_in=100) == sketch_hash.BloomFilter(num_bytes=32)
    for call in (*KINDS, *ONE_CALL):
        assert repr(call(data=FOX, seed=7)) == repr(call(FOX, 7))
    for call in (sketch_hash.xxh64_each, sketch_hash.murmur3_x64_128_each):
        assert call(keys=pair, seed=7) == call(pair, 7)


@pytest.mark.parametrize("call, args", [
    *((name, []) for name in (*FORMS, "copy", "reset", "__init__", "__reduce__", "__repr__")),
    ("update", [b"fox"]), ("__getattribute__", ["seed"]),
])
@pytest.mark.parametrize("kind", KINDS)
def test_each_call_waits_for_a_long_one(kind, call, args):
    hasher = kind()
    assert waits(lambda: hasher.update(ZEROS), lambda: getattr(hasher, call)(*args))


@pytest.mark.parametrize("kind", KINDS)
@pytest.mark.parametrize("args", [(5, 9), (b"fox", -1), ("fox", 9)], ids=["data", "seed", "str"])
def test_a_second_init_that_raises_changes_nothing(kind, args):
    hasher = kind(b"abc", 7)
    with pytest.raises((TypeError, OverflowError)):
        hasher.__init__(*args)
    assert (hasher.digest(), hasher.seed) == (kind(b"abc", 7).digest(), 7)
    hasher.__init__(b"fox", 9)
    assert (hasher.digest(), hasher.seed) == (kind(b"fox", 9).digest(), 9)


def test_an_input_may_be_longer_than_4_gib():
    with zeros((1 << 32) + 37) as data:
        seed, column = 2**64 - 1, (data, array.array("Q", [0, len(data)]))
        for kind, expected in ((xxh64, 0x9AE583956774714E), (murmur3_x64_128, 0x0B42F570045FBE6CE4DB2F081F3AE5B5)):
            assert kind(data, seed).intdigest() == expected
            assert getattr(sketch_hash, f"{kind.__name__}_intdigest")(data, seed) == expected
            hashes = getattr(sketch_hash, f"{kind.__name__}_each")(column, seed)
            assert int.from_bytes(b"".join(word.to_bytes(8, "big") for word in hashes), "big") == expected
        bloom = sketch_hash.BloomFilter(1024)
        bloom.add(data)
        bloom.add_each((data, array.array("I", [1 << 31, (1 << 31) + 3])))  # offsets of 32 bits have no sign
        assert bloom.contains_hashes(sketch_hash.xxh64_each(column)).tolist() == [True] and bytes(3) in bloom


# ---- Buffers

ACCEPTED = {
    "bytes with another length": type("Kind", (bytes,), {"__len__": lambda _: 3})(DATA),
    "bytearray": bytearray(DATA),
    "memoryview": memoryview(DATA),
    "slice": memoryview(b"other" + DATA)[5:],
    "rows": memoryview(DATA).cast("B", (12, 20)),
    "array": array.array("d", DATA),
    "mmap": mmap.mmap(-1, len(DATA)),
    "numpy": numpy.frombuffer(DATA, dtype=numpy.int16),
    "numpy rows": numpy.frombuffer(DATA, dtype=numpy.float32).reshape(6, 10),
    "ctypes": (ctypes.c_uint16 * 120).from_buffer_copy(DATA),
}
ACCEPTED["mmap"].write(DATA)
REJECTED = {
    "every other byte": memoryview(DATA)[::2],
    "every other word of numpy": numpy.frombuffer(DATA, dtype=numpy.int16)[::2],
    "columns of numpy": numpy.frombuffer(DATA, dtype=numpy.int16).reshape(12, 10).T,
    "a number": 5,
    "None": None,
    "a list": [1, 2],
}


@pytest.mark.parametrize("kind", KINDS)
@pytest.mark.parametrize("data", ACCEPTED.values(), ids=ACCEPTED)
def test_a_contiguous_buffer_is_an_input(kind, data):
    hasher = kind()
    hasher.update(data)
    one_call = getattr(sketch_hash, f"{kind.__name__}_digest")
    assert kind(data).digest() == hasher.digest() == one_call(data) == kind(DATA).digest()


@pytest.mark.parametrize("data", REJECTED.values(), ids=REJECTED)
def test_an_invalid_input_raises(data):
    hashers = [kind(b"a") for kind in KINDS]
    for call in (*KINDS, *ONE_CALL, *[hasher.update for hasher in hashers], sketch_hash.BloomFilter.from_bytes):
        with pytest.raises((TypeError, ValueError, BufferError)) as error:
            call(data)
        assert "encode" not in str(error.value)
    assert [hasher.digest() for hasher in hashers] == [kind(b"a").digest() for kind in KINDS]


@pytest.mark.parametrize("call", [*KINDS, *ONE_CALL, xxh64().update])
def test_a_str_is_an_error_that_says_to_encode_it(call):
    with pytest.raises(TypeError, match=r"^a str .*: pass data.encode\(\)$"):
        call("text")


def test_an_error_of_the_buffer_is_raised():
    bloom, released = sketch_hash.BloomFilter(32), memoryview(DATA)
    released.release()
    of_filters = bloom.add, bloom.__contains__, bloom.from_bytes, bloom.from_parquet, bloom.view
    for call in (*KINDS, *ONE_CALL, xxh64().update, *of_filters):
        with pytest.raises(ValueError, match="released memoryview"):
            call(released)


@pytest.mark.parametrize("empty", [b"", bytearray(), array.array("Q"), numpy.zeros(0)], ids=lambda data: type(data).__name__)
def test_an_empty_buffer_is_an_input(empty):
    assert xxh64(empty).hexdigest() == "ef46db3751d8e999" and murmur3_x64_128(empty).intdigest() == 0


def test_a_buffer_is_released():
    data = bytearray(DATA)
    xxh64(data).update(data)
    sketch_hash.murmur3_x64_128_digest(data)
    data.append(1)
