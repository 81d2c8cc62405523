"""Columns of keys compared with single calls, and columns that are errors."""
import array
import ctypes
import itertools
import random

import pytest
import sketch_hash
from helpers import ZEROS, hashes_of
from sketch_hash import BloomFilter, murmur3_x64_128_each, xxh64_each

numpy = pytest.importorskip("numpy")

KEYS = [random.Random(7).randbytes(length % 101) for length in range(1000)]
DATA = b"".join(KEYS)
OFFSETS = [0, *itertools.accumulate(map(len, KEYS))]
PAIR = DATA, array.array("Q", OFFSETS)
WIDTHS = pytest.mark.parametrize("dtype", ["int32", "uint32", "int64", "uint64"])
EACH = [xxh64_each, murmur3_x64_128_each]
BLOOM = BloomFilter(1024)
BLOOM.add(b"fox")


@pytest.mark.parametrize("each", EACH)
@WIDTHS
def test_each_key_has_the_hash_of_a_single_call(each, dtype):
    offsets = numpy.array(OFFSETS, dtype)
    for data in (DATA, bytearray(DATA), numpy.frombuffer(DATA, "uint8")):
        assert each((data, offsets), 2**64 - 1).tolist() == hashes_of(each, KEYS, 2**64 - 1)
    # Offsets of 32 bits may be at 4 modulo 8.
    for begin in (500, 501):
        assert each((DATA, offsets[begin:601])).tolist() == hashes_of(each, KEYS[begin:600], 0)


@pytest.mark.parametrize("dtype", ["int64", "uint64"])
def test_each_number_has_the_hash_of_its_bytes(dtype):
    numbers = numpy.array([0, 1, 2**40, 2**62, *range(1000)], dtype)
    hashes = [xxh64_each(numbers, seed) for seed in (2**64 - 1, 0)]  # each has its own memory
    for seed, found in zip((2**64 - 1, 0), hashes):
        assert found.tolist() == hashes_of(xxh64_each, [number.tobytes() for number in numbers], seed)
    assert numpy.asarray(found).dtype == numpy.uint64


def test_a_column_may_have_no_keys():
    before, no_texts = BLOOM.to_bytes(), [(b"", array.array("I", [0])), (DATA, array.array("I"))]
    no_numbers = [numpy.zeros(0, "uint64"), array.array("Q")]
    both = no_texts + no_numbers
    calls = {xxh64_each: both, murmur3_x64_128_each: no_texts, BLOOM.contains_each: both}
    assert all(call(keys).tolist() == [] for call, columns in calls.items() for keys in columns)
    for keys in both:
        BLOOM.add_each(keys)
    assert BLOOM.to_bytes() == before


@pytest.mark.parametrize("call", [*EACH, BLOOM.add_each, BLOOM.contains_each])
@WIDTHS
@pytest.mark.parametrize("index, wrong", [(0, len(DATA) + 1), (500, -1), (1000, len(DATA) + 1)])
def test_a_wrong_offset_is_reported_and_nothing_added(call, dtype, index, wrong):
    offsets, before = numpy.array(OFFSETS, dtype), BLOOM.to_bytes()
    offsets[index] = numpy.array(wrong).astype(dtype)
    with pytest.raises(ValueError, match=f"^the offset at {index} is missing, past the end or below the one before$"):
        call((DATA, offsets))
    assert BLOOM.to_bytes() == before


ROW = "one row of whole numbers of {} bits in the machine's byte order, as array.array has"
PAIR_OR = "^a column must be a pair of bytes and offsets, as column.texts. makes it, an Arrow array or "
COLUMN, OF_FILTER = PAIR_OR + ROW.format("64"), PAIR_OR + "one row of numbers of 32 or 64 bits"
XXH64, FILTER = [xxh64_each], [BLOOM.add_each, BLOOM.contains_each]


@pytest.mark.parametrize("calls, keys, text", [
    (XXH64, numpy.zeros(4, "u4"), COLUMN + r': numbers.astype."uint64". makes it$'),
    *((XXH64, numpy.zeros(*shape), COLUMN + "$") for shape in ((4, ">u8"), (4, "f8"), ((2, 2), "u8"), ((), "u8"))),
    *((XXH64, keys, COLUMN + "$") for keys in ([1, 2], "fox", DATA)),
    *((XXH64, (DATA, offsets), "^offsets must be " + ROW.format("32 or 64"))
      for offsets in (numpy.zeros(4, "u2"), numpy.zeros(4, "f4"), numpy.array(5, "u8"), DATA, [0, 3])),
    (XXH64, (DATA,), "^a column here must be a pair of bytes and offsets, as column"),
    (XXH64, (DATA, OFFSETS, 0), "^a column here must be a pair"),
    (XXH64, ("text", [0, 4]), "^a str has no bytes until it is encoded"),
    (XXH64, (numpy.array(["fox"], dtype=object), [0, 8]), "^data must be bytes, not addresses of objects"),
    ([murmur3_x64_128_each], numpy.zeros(4, "u8"), "^a column here must be a pair of bytes and offsets, as column"),
    (FILTER, numpy.zeros(3, "i2"), OF_FILTER + r'.* numbers.astype."int32". makes it, as Parquet stores smaller ones$'),
    *((FILTER, keys, OF_FILTER + ".* has$")
      for keys in (KEYS, numpy.zeros(3, "f2"), numpy.zeros((2, 2), "u8"), b"fox")),
    *(([BLOOM.add_hashes, BLOOM.contains_hashes], hashes, "^hashes must be " + ROW.format("64"))
      for hashes in (PAIR, [1, 2], numpy.zeros(2, "u4"), numpy.zeros(2, "f8"))),
])
def test_an_invalid_column_raises(calls, keys, text):
    for call in calls:
        with pytest.raises(TypeError, match=text):
            call(keys)


@pytest.mark.parametrize("letter", "iqd")
def test_numbers_need_not_be_aligned(letter):
    """As Dask hands them over."""
    numbers = array.array(letter, [3, 5, 7])
    moved = memoryview(b"-" + numbers.tobytes())[1:].cast(letter)
    bloom, expected = BloomFilter(1024), BloomFilter(1024)
    bloom.add_each(moved)
    expected.add_each(numbers)
    assert bloom == expected and bloom.contains_each(moved).tolist() == [True] * 3
    offsets = memoryview(b"-" + array.array("I", [0, 3, 6]).tobytes())[1:].cast("I")
    assert xxh64_each((b"foxdog", offsets)) == xxh64_each(sketch_hash.column(["fox", "dog"]))


@pytest.mark.parametrize("data", [
    numpy.zeros(4, object), memoryview(numpy.zeros(4, object)),
    numpy.zeros(2, [("text", object), ("number", "u8")]), numpy.zeros(2, [("date", "datetime64[D]"), ("text", object)]),
    (ctypes.py_object * 4)(*"foxy"), (ctypes.c_char_p * 4)(b"fox"), (ctypes.POINTER(ctypes.c_int) * 4)(),
], ids=["objects", "memoryview", "a field", "a field after a date", "ctypes", "char *", "pointers"])
def test_an_array_of_objects_is_an_error(data):
    for call in (sketch_hash.xxh64, sketch_hash.murmur3_x64_128_digest, BloomFilter.from_bytes, BloomFilter.view):
        if call == BloomFilter.view and "date" in str(getattr(data, "dtype", "")):
            continue  # no memoryview of dates exists, by an error of numpy
        with pytest.raises(TypeError, match="^data must be bytes, not addresses of objects: encode each object"):
            call(data)


@pytest.mark.parametrize("data", [
    numpy.zeros(2, [("O", "S3"), ("number", "u8")]), numpy.zeros(2, "datetime64[D]"), numpy.zeros(2, "c16"),
], ids=["a field named O", "dates", "complex numbers"])
def test_an_array_without_objects_is_data(data):
    assert sketch_hash.xxh64_digest(data) == sketch_hash.xxh64_digest(data.tobytes())


@pytest.mark.parametrize("call", [*EACH, BLOOM.add_each, BLOOM.contains_each])
def test_a_negative_offset_is_an_error_beyond_2_gib(call):
    first = -2**31  # 2**31 without a sign
    for offsets, index in (([first, first + 3], 0), ([5, first], 1), ([0, 5, -1], 2)):
        with pytest.raises(ValueError, match=f"^the offset at {index} is missing, past the end or below"):
            call((ZEROS, array.array("i", offsets)))
    call((ZEROS, array.array("I", [2**31, 2**31 + 3])))
    call((ZEROS, array.array("i", [2**31 - 4, 2**31 - 1])))


def test_a_column_of_texts_is_their_bytes_and_offsets():
    texts = ["fox", "", "dög", "dog"]
    data, offsets = sketch_hash.column(texts)
    assert data == "foxdögdog".encode() and offsets.tolist() == [0, 3, 3, 7, 10]
    encoded = [text.encode() for text in texts]
    for same in (tuple(texts), iter(texts), numpy.array(texts), numpy.array(texts, object), encoded):
        assert sketch_hash.column(same) == (data, offsets)
    assert xxh64_each((data, offsets)).tolist() == [sketch_hash.xxh64_intdigest(key) for key in encoded]
    assert xxh64_each(sketch_hash.column([])).tolist() == []


def test_a_text_is_itself_and_not_what_its_methods_return():
    class Text(str):
        encode = lambda *_: b"other"

    class Bytes(bytes):
        __bytes__ = __buffer__ = lambda *_: b"other"

    assert sketch_hash.column([Text("fox"), Bytes(b"dog")]) == sketch_hash.column(["fox", "dog"])
    bloom = BloomFilter(32)
    bloom.update([Text("fox"), Bytes(b"dog")])
    assert "fox" in bloom and "dog" in bloom and "other" not in bloom


@pytest.mark.parametrize("dtype", ["f4", "f8"])
def test_a_nan_of_numpy_is_an_error(dtype):
    """It may be a missing value of whole numbers, which would be other keys."""
    for call in FILTER:
        with pytest.raises(ValueError, match="^the key at 1 must not be NaN, .*: pass the Arrow array that it"):
            call(numpy.array([1, numpy.nan, 3], dtype))


@pytest.mark.parametrize("keys", [
    numpy.ma.array([1, 2], mask=[0, 1]), (b"foxdog", numpy.ma.array([0, 3, 6], mask=[0, 1, 0])),
], ids=["numbers", "offsets"])
def test_a_masked_array_is_an_error(keys):
    """Its buffer has the masked values too."""
    for call in (*FILTER, xxh64_each):
        with pytest.raises(TypeError, match=r"^a column must not be a masked array: pass pyarrow.array\(keys\), or keys"):
            call(keys)
    with pytest.raises(TypeError, match="^a column must not be a masked array"):
        BLOOM.add_hashes(numpy.ma.array([1, 2], "u8"))


class Series:
    """As that of pandas 2, which exports nothing."""
    def __array__(self):
        return numpy.zeros(2)

    def mask(self, where):
        """It is no mask."""


@pytest.mark.parametrize("keys", [Series(), numpy.zeros(2, "datetime64[ns]"), numpy.zeros(2, "timedelta64[ms]")],
                         ids=["Series", "dates", "durations"])
def test_what_exports_no_numbers_is_an_error_with_the_cure(keys):
    for call in (*EACH, *FILTER):
        with pytest.raises(TypeError, match=r": pyarrow.array\(keys\) makes an Arrow array$"):
            call(keys)


@pytest.mark.parametrize("texts, text", [
    (numpy.array([b"ab\0"]), "^texts must not be an array of numpy's type S, which drops zero bytes at their ends"),
    (["fox", None], "^the key at 1 must be str or bytes, not NoneType$"),
    ("fox", "^texts must be many, not one$"),
], ids=["type S of numpy", "missing value", "one text"])
def test_column_rejects_other_texts(texts, text):
    with pytest.raises(TypeError, match=text):
        sketch_hash.column(texts)
