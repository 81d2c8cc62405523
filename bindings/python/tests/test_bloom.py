"""The Bloom filter: its format, keys and columns, whole filters, memory, threads, and errors."""
import array
import io
import math
import mmap
import pickle
import subprocess
import sys

import pytest
from helpers import WAYS, ZEROS, in_threads, rate_of, waits
from sketch_hash import BloomFilter, column, xxh64_each, xxh64_intdigest

numpy = pytest.importorskip("numpy")

KEYS = [b"", bytes(1000), *[b"key %d" % n for n in range(50)]]
PAIR = column(KEYS)


def filled(keys=KEYS, num_bytes=1024):
    bloom = BloomFilter(num_bytes)
    bloom.update(keys)
    return bloom


def bits(keys=KEYS):
    return filled(keys).to_bytes()


# ---- The format

def test_a_filter_for_parquet_is_that_of_duckdb_and_is_read_back():
    bloom = filled(["k%d" % n for n in range(20)], 32)
    stored = bytes.fromhex("15401c1c00001c1c00001c1c000000" "7762c44f0ff80cf3b18df605dbfae411"
                           "15d29248a7c8a4b748693e2dc1e29822")
    assert bloom.to_parquet() == stored
    for data in (stored, stored + b"more of the file", bytearray(stored), memoryview(b"-" + stored)[1:]):
        assert BloomFilter.from_parquet(data) == bloom
        assert BloomFilter.parquet_bits(data) == BloomFilter.parquet_bits(data[: bloom.PARQUET_HEADER_MAX]) == range(15, 47)


@pytest.mark.parametrize("data, text", [
    (b"", "does not begin with the whole header"),
    (b"PAR1" + bytes(100), "does not begin with the whole header"),
    (filled().to_bytes(), "does not begin with the whole header"),
    (filled().to_parquet()[:-1], "is truncated: it has 1024 bytes after its header, and here are 1023$"),
], ids=["empty", "start of the file", "bits alone", "truncated"])
def test_from_parquet_rejects_other_bytes(data, text):
    with pytest.raises(ValueError, match=text):
        BloomFilter.from_parquet(data)
    if "does not begin" in text:
        with pytest.raises(ValueError, match=text):
            BloomFilter.parquet_bits(data)


# ---- Sizes

def test_a_filter_for_keys_takes_a_rate_in_two_forms():
    filters = BloomFilter.for_keys(1000, error_rate=0.01), BloomFilter.for_keys(1000, one_in=100), BloomFilter.for_keys(1000)
    assert all(bloom == BloomFilter(2048) for bloom in filters)


@pytest.mark.parametrize("one_in", [2, 49, 98, 100, 103, 10**6])
def test_an_error_rate_is_one_in_its_reciprocal(one_in):
    """Also if the division is rounded, as 1 / 49 and 1 / (1 / 49) are."""
    rate = 1 / one_in
    for rate, expected in ((rate, one_in), (numpy.float64(rate), one_in), (math.nextafter(rate, 0), one_in + 1)):
        with pytest.raises(ValueError, match=f"128 MiB has {10**12} keys and reports one in {expected} others"):
            BloomFilter.for_keys(10**12, error_rate=rate)


@pytest.mark.parametrize("keys, kwargs, error, text", [
    (1000, {"error_rate": 0.01, "one_in": 100}, TypeError, "takes one of error_rate, as 0.01, and one_in, as 100"),
    (1000, {"error_rate": 1e-300}, ValueError, "no filter of up to 128 MiB"),
    (1000, {"one_in": 0}, ValueError, "one_in must be at least 1"),
    (-1, {"one_in": 100}, OverflowError, "keys must be from 0 to"),
    (1000, {"one_in": 2**64}, OverflowError, "one_in must be from 0 to"),
    (1000.0, {"one_in": 100}, TypeError, "integer"),
    (1000, {"error_rate": "0.01"}, TypeError, "must be real number, not str"),
    *((1000, {"error_rate": rate}, ValueError, "^error_rate must be above 0 and below 1, as 0.01 for one key in a hundred")
      for rate in (0, 1, -0.01, math.nan, math.inf)),
], ids=str)
def test_for_keys_rejects_other_arguments(keys, kwargs, error, text):
    with pytest.raises(error, match=text):
        BloomFilter.for_keys(keys, **kwargs)


@pytest.mark.parametrize("length", [0, 1, 31, 33, -32, 2**37, 2**64 + 32])
def test_an_invalid_length_raises(length):
    calls = [lambda: BloomFilter(length)]
    if 0 <= length < 2**37:
        calls += [lambda: BloomFilter.from_bytes(bytes(length)), lambda: BloomFilter.view(bytes(length))]
    for call in calls:
        with pytest.raises(ValueError, match=f"multiple of 32 bytes, below 2..37, not {length}: BloomFilter.for"):
            call()


# ---- Keys

@pytest.mark.parametrize("key, data", [
    ("dög", "dög".encode()), (numpy.str_("fox"), b"fox"), (bytearray(b"fox"), b"fox"),
    (memoryview(b"-fox")[1:], b"fox"), (numpy.frombuffer(b"fox", "u1"), b"fox"), (numpy.bytes_(b"fox"), b"fox"),
    (bytes(70_000), bytes(70_000)), ("x" * 70_000, b"x" * 70_000),
], ids=["text", "text of numpy", "bytearray", "memoryview", "array of numpy", "bytes of numpy", "long bytes", "long text"])
def test_a_key_is_a_text_or_bytes(key, data):
    bloom = BloomFilter(1024)
    bloom.add(key)
    assert key in bloom and bloom.to_bytes() == bits([data])


@pytest.mark.parametrize("key", [
    5, None, ["fox"], array.array("d", [1]), numpy.int64(5), numpy.zeros(2, object), memoryview(bytes(8)).cast("I"),
    numpy.int8(5), numpy.uint8(5), numpy.bool_(True), numpy.datetime64("2026-11-29"), numpy.timedelta64(3, "s"),
    numpy.void(b"fox"), numpy.array(5, "u1"), numpy.zeros(2, "datetime64[D]"), BloomFilter(32),
    numpy.ma.array([5], "u1", mask=[1]),
], ids=lambda key: type(key).__name__)
def test_a_key_of_an_invalid_type_raises(key):
    bloom = filled()
    for call in (bloom.add, bloom.__contains__):
        with pytest.raises(TypeError, match="^a key must be str or bytes, not .*: add_each and contains_each take"):
            call(key)
    assert bloom == filled()


@pytest.mark.parametrize("key, error", [
    (5, TypeError), ("\ud800", UnicodeEncodeError), (memoryview(b"f-o-")[::2], BufferError),
])
def test_update_keeps_the_keys_before_a_wrong_one(key, error):
    bloom = filled([])
    with pytest.raises(error):
        bloom.update([b"fox", key, b"cat"])
    assert bloom == filled([b"fox"])


@pytest.mark.parametrize("keys", [b"fox", "fox", bytearray(b"fox"), memoryview(b"fox"), BloomFilter(32)])
def test_update_rejects_a_single_key(keys):
    with pytest.raises(TypeError, match="^update takes an iterable of keys: add takes one key, add_each a column, and"):
        BloomFilter(32).update(keys)


# ---- Columns

@pytest.mark.parametrize("dtype", ["int32", "uint32", "int64", "uint64"])
def test_a_column_of_texts_has_the_keys_of_single_calls(dtype):
    offsets = numpy.array(PAIR[1], dtype)
    for data in (PAIR[0], numpy.frombuffer(PAIR[0], "u1")):
        bloom = BloomFilter(1024)
        bloom.add_each((data, offsets[:21]))
        assert bloom.to_bytes() == bits(KEYS[:20])
        found = bloom.contains_each((data, offsets)).tolist()
        assert found == [key in bloom for key in KEYS] and all(found[:20]) and not all(found)


@pytest.mark.parametrize("dtype", ["int32", "uint32", "float32", "int64", "uint64", "float64"])
def test_a_number_of_a_column_is_its_bytes(dtype):
    numbers = numpy.arange(100).astype(dtype) - numpy.array(3, dtype)
    bloom = BloomFilter(1024)
    bloom.add_each(numbers)
    assert bloom.to_bytes() == bits([number.tobytes() for number in numbers])
    assert all(bloom.contains_each(numbers)) and not any(BloomFilter(32).contains_each(numbers))


def test_a_hash_may_be_added_in_place_of_its_key():
    bloom = BloomFilter(1024)
    bloom.add_hashes(xxh64_each(PAIR))
    assert bloom == filled() and all(bloom.contains_hashes(xxh64_each(PAIR)))
    assert not all(bloom.contains_hashes(xxh64_each(PAIR, 1)))


# ---- Whole filters

def test_a_merge_has_the_keys_of_both():
    one, two = filled(KEYS[:20]), filled(KEYS[20:])
    assert (one | two).to_bytes() == bits()
    assert one == filled(KEYS[:20]) and two == filled(KEYS[20:])
    same = one
    one |= two
    assert one is same and one == filled() != two


def test_a_filter_may_be_merged_with_its_own_memory():
    buffer = bytearray(bits())
    view = BloomFilter.view(buffer)
    view |= BloomFilter.view(buffer)
    view |= view
    assert buffer == bits()


def test_a_filter_of_another_size_is_not_merged():
    bloom = filled()
    with pytest.raises(ValueError, match="^filters of 1024 and 32 bytes cannot be merged: create both with one size$"):
        bloom |= BloomFilter(32)
    assert bloom == filled()


@pytest.mark.parametrize("other", [b"fox", None, {b"fox"}])
def test_only_a_filter_is_merged_or_equal(other):
    bloom = filled()
    for call in (lambda: bloom | other, lambda: other | bloom):
        with pytest.raises(TypeError):
            call()
    assert bloom.__ior__(other) is NotImplemented and bloom != other


def test_filters_are_equal_if_their_bits_are():
    assert filled() == filled(reversed(KEYS)) != filled(KEYS[1:]) and BloomFilter(32) != BloomFilter(64)
    assert repr(BloomFilter(64)) == "<sketch_hash.BloomFilter of 64 bytes>"
    with pytest.raises(TypeError, match="unhashable"):
        hash(filled())


@pytest.mark.parametrize("way", WAYS)
@pytest.mark.parametrize("data", [None, bytes, bytearray], ids=["own memory", "read-only view", "view"])
def test_a_copy_is_independent(way, data):
    first = BloomFilter.view(data(bits())) if data else filled()
    second = way(first)
    second.add(b"second")
    assert type(second) is BloomFilter
    assert first.to_bytes() == bits() and second.to_bytes() == bits([*KEYS, b"second"])


def test_a_pickle_out_of_band_has_the_bits_without_a_copy():
    bloom, buffers = filled(), []
    data = pickle.dumps(bloom, 5, buffer_callback=buffers.append)
    assert len(data) < 100 and buffers[0].raw() == bits() and sys.getsizeof(bloom) > bloom.num_bytes
    copy = pickle.loads(data, buffers=buffers)
    bloom.add(b"second")
    assert copy == filled() and buffers[0].raw() == bloom


@pytest.mark.parametrize("num_bytes", [64, 192, 1024, 1 << 18])
def test_a_folded_filter_is_that_of_half_the_size(num_bytes):
    bloom = filled(KEYS, num_bytes)
    bloom.fold()
    assert bloom == filled(KEYS, num_bytes // 2) and sys.getsizeof(bloom) < num_bytes // 2 + 200
    bloom.add(b"fox")
    assert bloom == filled([*KEYS, b"fox"], num_bytes // 2)


def test_a_filter_is_folded_while_it_finds_at_most_one_other_key_in_n():
    n = int(1 / rate_of(filled(KEYS, 512)))
    for rate, before, after in [
        (1 / n, 1 << 17, 512), (1 / (n + 1), 1 << 17, 1024), (1 / n, 256, 256), (0.9, 1536, 96), (0.9, 96, 96), (0.9, 32, 32),
    ]:
        bloom = filled(KEYS, before)
        bloom.fold(error_rate=rate)
        assert bloom == filled(KEYS, after)


def test_the_block_of_a_hash_tells_whether_a_filter_has_it():
    bloom, hashes = filled(KEYS, 96), [xxh64_intdigest(key) for key in KEYS]
    for hash in hashes:
        start = BloomFilter.block_offset(96, hash)
        assert all(BloomFilter.view(bytes(bloom)[start : start + 32]).contains_hashes(array.array("Q", [hash])))
    for num_bytes in (0, 33, 2**37):
        with pytest.raises(ValueError, match=f"must have a positive multiple of 32 bytes, below 2..37, not {num_bytes}"):
            BloomFilter.block_offset(num_bytes, 1)
    for hash in (-1, 2**64):
        with pytest.raises(OverflowError, match="^hash must be from 0 to 2..64 - 1$"):
            BloomFilter.block_offset(96, hash)


@pytest.mark.parametrize("make, args, error, text", [
    (lambda: BloomFilter(96), (), ValueError, "must have an even number of blocks, not 3"),
    (lambda: BloomFilter(32), (), ValueError, "must have an even number of blocks, not 1"),
    (lambda: BloomFilter.view(bytearray(64)), (), TypeError, "must not be a view: copy.. makes one"),
    (lambda: BloomFilter.view(bytearray(64)), (0.5,), TypeError, "must not be a view: copy.. makes one"),
    (lambda: BloomFilter(64), ("0.01",), TypeError, "must be real number"),
    (lambda: BloomFilter(64), (1,), ValueError, "error_rate must be above 0 and below 1"),
    (lambda: BloomFilter(64), (math.nan,), ValueError, "error_rate must be above 0 and below 1"),
    (lambda: BloomFilter.__new__(BloomFilter), (), ValueError, "the filter was released"),
], ids=["odd number of blocks", "one block", "view", "view to a rate", "text as a rate", "rate of 1", "NaN", "no memory"])
def test_an_invalid_fold_raises_and_changes_nothing(make, args, error, text):
    bloom = make()
    with pytest.raises(error, match=text):
        bloom.fold(*args)
    if "released" not in repr(bloom):
        bloom.add(b"fox")
        assert bloom == filled([b"fox"], bloom.num_bytes)


# ---- Memory

@pytest.mark.parametrize("way", [
    "view(buffer)", "view(memoryview(buffer))", "view(memoryview(view(buffer)))", "memoryview(view(buffer))",
    pytest.param("view(exporter(buffer))", marks=pytest.mark.skipif(
        sys.version_info < (3, 12), reason="before Python 3.12 no class of Python exports memory")),
])
def test_a_cycle_through_a_view_is_collected(way):
    """In a process of its own, since the order in which the collector clears objects depends on all others."""
    code = f"""if True:
        import gc, weakref, sketch_hash
        view = sketch_hash.BloomFilter.view
        class Buffer(bytearray): pass
        def exporter(buffer):
            exporter = type("Exporter", (), {{"__buffer__": lambda self, flags: memoryview(self.memory)}})()
            exporter.memory, exporter.buffer = bytearray(1024), buffer
            return exporter
        def cycle():
            buffer = Buffer(1024)
            buffer.view = {way}
            return weakref.ref(buffer)
        references = [cycle() for _ in range(50)]
        gc.collect()
        assert [reference() for reference in references] == [None] * 50"""
    subprocess.run([sys.executable, "-c", code], check=True)


@pytest.mark.parametrize("call", ["view.release()", "view.__init__(64)", "view.add('fox')", "view.__init__(96)"])
@pytest.mark.parametrize("end", ["view.release()", "view.__init__(64)"])
def test_the_last_code_of_a_buffer_may_call_the_filter_that_was_its_view(end, call):
    """In a process of its own, since what could be wrong is the use of freed memory."""
    code = f"""if True:
        import sketch_hash
        calls = []
        class Buffer(bytearray):
            def __del__(self):
                calls.append(1)
                {call}
        view = sketch_hash.BloomFilter.view(Buffer(64))
        {end}
        view.__init__(32)
        view.add("fox")
        assert "fox" in view and calls"""
    subprocess.run([sys.executable, "-c", code], check=True, capture_output=True)


@pytest.mark.parametrize("make, end", [
    ("bytearray(1 << 20)", "memory.clear()"), ("mmap.mmap(-1, 1 << 20)", "memory.close()"),
    ("array.array('B', bytes(1 << 20))", "memory.append(0)"),
], ids=["bytearray", "mmap", "array"])
def test_who_releases_all_memoryviews_does_not_free_the_memory_of_a_view(make, end):
    """As a program does that shall close a shared memory. In a process of its own, since others have memoryviews too."""
    code = f"""if True:
        import array, gc, mmap, sketch_hash
        memory = {make}
        bloom = sketch_hash.BloomFilter.view(memoryview(memory)[4096:])
        def release(objects):
            for found in objects:
                if type(found) is memoryview:
                    found.release()
        release(gc.get_objects())
        release(gc.get_referents(bloom, *gc.get_referents(bloom)))
        try:
            {end}
        except BufferError:
            bloom.add("fox")
        assert "fox" in bloom
        bloom.release()
        {end}"""
    subprocess.run([sys.executable, "-c", code], check=True)


def test_a_view_outlives_the_memoryview_that_it_was_made_of():
    memory = memoryview(bytearray(bits()))
    view = BloomFilter.view(memory[:512])
    memory.release()
    view.add(b"fox")
    assert b"fox" in view and view.num_bytes == 512
    view.release()


def test_a_view_is_of_contiguous_memory():
    for memory in (memoryview(bits())[::2], numpy.zeros((32, 32), "u1").T):
        with pytest.raises(BufferError, match="^a view must be of memory that is C-contiguous$"):
            BloomFilter.view(memory)


def test_a_view_changes_the_buffer():
    for buffer in (bytearray(1024), mmap.mmap(-1, 1024), numpy.zeros(128, "u8")):
        view = BloomFilter.view(buffer)
        view.update(KEYS)
        view |= filled([b"fox"])
        assert bytes(memoryview(buffer)) == bits([*KEYS, b"fox"]) == view.to_bytes()
        view.release()


CALLS = {
    "add": lambda bloom: bloom.add(b"fox"), "in": lambda bloom: b"fox" in bloom,
    "add_each": lambda bloom: bloom.add_each(PAIR), "contains_each": lambda bloom: bloom.contains_each(PAIR),
    "add_hashes": lambda bloom: bloom.add_hashes(array.array("Q", [1])),
    "|=": lambda bloom: bloom.__ior__(filled()), "source of |=": lambda bloom: filled().__ior__(bloom),
    "|": lambda bloom: bloom | filled(), "==": lambda bloom: bloom == filled(), "copy": BloomFilter.copy,
    "to_bytes": BloomFilter.to_bytes, "to_parquet": BloomFilter.to_parquet, "fold": lambda bloom: bloom.fold(0.5),
    "num_bytes": lambda bloom: bloom.num_bytes, "memoryview": memoryview,
}


@pytest.mark.parametrize("change", ["add", "add_each", "add_hashes", "|="])
def test_a_view_of_read_only_memory_cannot_be_changed(change):
    readonly = numpy.frombuffer(bytearray(bits()), "u1")
    readonly.flags.writeable = False
    for buffer in (bits(), readonly, memoryview(bytearray(bits())).toreadonly()):
        view = BloomFilter.view(buffer)
        assert all(view.contains_each(PAIR)) and KEYS[7] in view and b"fox" not in view
        with pytest.raises(TypeError, match=r"^this filter is a view of read-only memory: copy\(\) makes one that can"):
            CALLS[change](view)
        assert view == filled() and memoryview(view).readonly


def test_a_view_keeps_the_length_of_its_buffer_until_it_is_released():
    buffer = bytearray(1024)
    view = BloomFilter.view(buffer)
    with pytest.raises(BufferError):
        buffer.append(1)
    del view
    with pytest.raises(TypeError), BloomFilter.view(buffer) as view:
        view.add(5)
    buffer.append(1)


@pytest.mark.parametrize("call", CALLS.values(), ids=CALLS)
@pytest.mark.parametrize("is_new", [False, True], ids=["released", "never initialized"])
def test_a_released_filter_raises(call, is_new):
    bloom = BloomFilter.__new__(BloomFilter) if is_new else filled()
    bloom.release()
    with pytest.raises(ValueError, match="^the filter was released$"):
        call(bloom)


def test_a_memoryview_shares_the_bits():
    bloom = BloomFilter(1024)
    with memoryview(bloom) as memory:
        assert (memory.nbytes, memory.format, memory.itemsize, memory.readonly) == (1024, "B", 1, False)
        bloom.update(KEYS)
        assert memory == bits()
        memory[:] = bytes(1024)
        for call in (bloom.release, lambda: bloom.__init__(32), bloom.fold):
            with pytest.raises(BufferError, match="^memoryviews of the filter exist: release them first$"):
                call()
    assert bytes(bloom) == bytes(1024)
    bloom.release()


def test_a_view_of_read_only_memory_has_no_writable_buffer():
    view, references = BloomFilter.view(bits()), sys.getrefcount(None)
    for _ in range(1000):
        memoryview(view).release()
        with pytest.raises((BufferError, TypeError), match="read-only|read-write"):
            io.BytesIO(b"fox").readinto(view)
    assert abs(sys.getrefcount(None) - references) < 500


def test_a_key_may_be_in_the_memory_of_the_filter():
    buffer = bytearray(bits())
    view, key = BloomFilter.view(buffer), memoryview(buffer)[100:200]
    before = bytes(key)
    view.add(key)
    assert buffer == bits([*KEYS, before])


@pytest.mark.parametrize("keys", [
    lambda part: part[:64].cast("Q"), lambda part: part[1016:1032].cast("Q"),
    lambda part: (part[1000:], array.array("Q", [0, 1])), lambda part: (b"fox", part[1016:1032].cast("I")),
], ids=["within", "at the end", "texts", "offsets"])
def test_a_column_in_the_memory_of_the_filter_is_an_error(keys):
    buffer = bytearray(1024 + 48)
    view = BloomFilter.view(memoryview(buffer)[:1024])
    with pytest.raises(ValueError, match="^the column is in the filter's own memory: pass a copy of it$"):
        view.add_each(keys(memoryview(buffer)))
    assert buffer == bytes(1024 + 48)
    view.contains_each(keys(memoryview(buffer)))  # writes nothing to the buffer
    view.add_each(memoryview(buffer)[1024:1032].cast("Q"))
    assert view.to_bytes() == bits([bytes(8)])


# ---- Threads

def test_threads_may_share_filters():
    """The keys, the columns and the filters are long enough for a call to release the GIL."""
    keys, numbers = [bytes([n]) * 70_000 for n in range(20)], numpy.arange(40_000, dtype="u8")
    bloom, other = BloomFilter(1 << 20), BloomFilter(1 << 20)

    def work(first):
        bloom.update(keys)
        bloom.add_each(numbers[first::4].copy())
        other.add(b"%d" % first)
        for _ in range(50):
            bloom.__ior__(other)
            other.__ior__(bloom)

    in_threads(work)
    expected = filled([*keys, b"0", b"1", b"2", b"3"], 1 << 20)
    expected.add_each(numbers)
    assert bloom == other == expected


@pytest.mark.parametrize("call", [*CALLS.values(), BloomFilter.release], ids=[*CALLS, "release"])
def test_each_call_waits_for_a_long_one(call):
    bloom, zeros = filled(), (ZEROS, array.array("Q", [0, len(ZEROS)]))

    def add_zeros():
        if "released" not in repr(bloom):
            bloom.add_each(zeros)

    assert waits(add_zeros, lambda: call(bloom))
