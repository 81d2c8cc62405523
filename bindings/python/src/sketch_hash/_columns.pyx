"""Columns: many keys in a call. They are texts, numbers, or of Arrow."""
cimport cython
from cpython.buffer cimport PyBUF_C_CONTIGUOUS, PyBUF_FORMAT
from cpython.bytearray cimport PyByteArray_AS_STRING
from cpython.bytes cimport PyBytes_AS_STRING, PyBytes_FromStringAndSize, PyBytes_GET_SIZE
from cpython.exc cimport PyErr_CheckSignals
from cpython.unicode cimport PyUnicode_AsUTF8String
from libc.stdint cimport INT32_MAX, uint64_t, uintptr_t
from libc.string cimport strchr, strlen, strspn

from ._arrow cimport Arrow, exports_arrow
from ._common cimport LONG, PyBuffer_Release, PyObject_GetBuffer, View, get_bytes, overlap, word_of
from ._keys cimport HASHES, NUMBERS32, NUMBERS64, OFFSETS32, OFFSETS64, Keys, hash_keys
from ._library cimport *

import array
import itertools


@cython.no_gc
cdef class Column:
    """The keys of a call: texts with the offsets where they begin and end, or numbers, or of Arrow."""

    def __dealloc__(self):
        PyBuffer_Release(&self.data)
        PyBuffer_Release(&self.numbers)

    cdef Py_ssize_t size(self) noexcept:
        return self.data.len + self.numbers.len if self.arrow is None else self.arrow.num_bytes

    cdef bint check_signals_if_more(self) except -1:
        """Returns whether rows are left for another call. If so, it runs signal handlers first, and raises what they raise.
        They may call the object whose lock the last call held, so that is released before."""
        if self.arrow is None or self.arrow.chunk is NULL:
            return False
        PyErr_CheckSignals()
        self.arrow.work = 0
        return True

    cdef bint overlaps(self, const void *memory, size_t length) noexcept nogil:
        if self.arrow is not None:
            return self.arrow.overlaps(memory, length)
        return (overlap(self.data.buf, self.data.len, memory, length)
                or overlap(self.numbers.buf, self.numbers.len, memory, length))


# ---- What an argument may be

PAIR = "a pair of bytes and offsets, as column(texts) makes it,"


cdef class NumberRule:
    """Which numbers an argument may be, and what the error says if it is something else."""
    cdef bytes letters  # their formats, as in the module struct
    cdef Py_ssize_t narrowest  # bytes
    cdef bint may_be_arrow
    cdef str text, cast  # of the error, and of small numbers how to make wider ones

    def __init__(self, letters, narrowest, text, *, may_be_arrow=False, cast=""):
        self.letters, self.narrowest, self.may_be_arrow, self.cast = letters, narrowest, may_be_arrow, cast
        self.text = f"{text} in the machine's byte order, as array.array has"

    cdef str error_of(self, object numbers):
        return self.text + advice_for(numbers) if self.may_be_arrow else self.text


cdef NumberRule offset_rule = NumberRule(b"iIlLqQ", 4, "offsets must be one row of whole numbers of 32 or 64 bits")
cdef NumberRule hash_rule = NumberRule(b"lLqQ", 8, "hashes must be one row of whole numbers of 64 bits")
cdef NumberRule word_rule = NumberRule(
    b"lLqQ", 8, f"a column must be {PAIR} an Arrow array or one row of whole numbers of 64 bits",
    may_be_arrow=True, cast=': numbers.astype("uint64") makes it')
cdef NumberRule key_rule = NumberRule(
    b"iIlLqQfd", 4, f"a column must be {PAIR} an Arrow array or one row of numbers of 32 or 64 bits",
    may_be_arrow=True, cast=': numbers.astype("int32") makes it, as Parquet stores smaller ones')


cdef str advice_for(object keys):
    """For a Series of pandas 2, and for dates of numpy."""
    return ": pyarrow.array(keys) makes an Arrow array" if hasattr(type(keys), "__array__") else ""


cdef Column keys_of(object keys):
    """The keys of a filter."""
    return column_of(keys, key_rule)


cdef Column hashes_of(object hashes):
    """The hashes of keys of a filter."""
    column = numbers_of(hashes, hash_rule)
    column.keys.content = HASHES
    return column


cdef Column column_of(object keys, NumberRule rule):
    """Keys that are a pair, or of Arrow, or numbers if there is a rule for them."""
    if isinstance(keys, tuple) and len(<tuple>keys) == 2:
        return pair_of(keys)
    if is_arrow(keys):
        return arrow_of(keys)
    if rule is None or isinstance(keys, tuple):
        raise TypeError(f"a column here must be {PAIR} or an Arrow array{advice_for(keys)}")
    return numbers_of(keys, rule)


cdef type no_arrow = bytes  # the last type of keys that export no Arrow: to look again takes a tenth of a short call


cdef bint is_arrow(object keys) except -1:
    global no_arrow
    if type(keys) is no_arrow:
        return False
    if exports_arrow(keys):
        return True
    no_arrow = type(keys)
    return False


# ---- Columns by their content

cdef Column arrow_of(object keys):
    cdef Column column = Column.__new__(Column)
    column.arrow = Arrow(keys)
    column.count = column.arrow.count
    return column


cdef Column pair_of(object pair):
    """Texts, by their bytes and offsets: the items themselves, whatever a subclass of tuple returns for them."""
    cdef Column column = Column.__new__(Column)
    column.texts = (<tuple>pair)[0]
    get_bytes(column.texts, &column.data)
    letter = get_numbers(column, (<tuple>pair)[1], offset_rule)
    cdef Keys *keys = &column.keys
    keys.content = OFFSETS32 if column.numbers.itemsize == 4 else OFFSETS64
    keys.count = column.count = keys.items - 1 if keys.items else 0
    keys.text, keys.reach = column.data.buf, column.data.len
    if keys.reach > INT32_MAX and keys.content == OFFSETS32 and (letter == c"i" or letter == c"l"):
        keys.reach = INT32_MAX  # as sketch_hash.h says: a negative offset is then past the end
    return column


cdef Column numbers_of(object numbers, NumberRule rule):
    cdef Column column = Column.__new__(Column)
    get_numbers(column, numbers, rule)
    column.keys.content = NUMBERS32 if column.numbers.itemsize == 4 else NUMBERS64
    column.keys.count = column.count = column.keys.items
    return column


cdef char get_numbers(Column column, object numbers, NumberRule rule) except 0:
    """Gets the buffer, and returns the letter of its format."""
    refuse_mask(numbers)
    try:
        PyObject_GetBuffer(numbers, &column.numbers, PyBUF_C_CONTIGUOUS | PyBUF_FORMAT)
    except (TypeError, ValueError) as error:  # a ValueError for dates, since numpy has no format for them
        if isinstance(error, ValueError) and getattr(getattr(numbers, "dtype", None), "kind", None) not in ("M", "m"):
            raise
        raise TypeError(rule.error_of(numbers)) from None
    cdef View *memory = &column.numbers
    cdef char letter = letter_of(memory)
    if letter == 0 or strchr(rule.letters, letter) is NULL or memory.itemsize < rule.narrowest:
        is_whole = letter and strchr("bBhHiIlL", letter) is not NULL
        is_small = is_whole and memory.itemsize < 8 and not isinstance(numbers, (bytes, bytearray))
        raise TypeError(rule.text + rule.cast if is_small else rule.text)
    column.keys.items = memory.len // memory.itemsize
    column.keys.numbers = memory.buf
    if memory.len and <uintptr_t>memory.buf % memory.itemsize:  # as Dask hands arrays over
        column.aligned = PyBytes_FromStringAndSize(<char *>memory.buf, memory.len)
        column.keys.numbers = PyBytes_AS_STRING(column.aligned)
    if letter == c"d":
        refuse_nan(<double *>column.keys.numbers, column.keys.items)
    elif letter == c"f":
        refuse_nan(<float *>column.keys.numbers, column.keys.items)
    return letter


cdef char letter_of(const View *memory) noexcept:
    """The format of one row of numbers, or 0."""
    cdef const char *format = memory.format
    if format is NULL:
        format = "B"
    format += strspn(format, "@=<")
    return format[0] if strlen(format) == 1 and memory.ndim == 1 else 0


cdef type no_mask = bytes  # the last type of numbers that has no mask: to look again takes a quarter of a short call


cdef int refuse_mask(object numbers) except -1:
    """The buffer of a masked array of numpy has the masked values too."""
    global no_mask
    if type(numbers) is no_mask:
        return 0
    if isinstance(getattr(type(numbers), "mask", None), property):  # a Series of pandas has a method of this name
        raise TypeError("a column must not be a masked array: pass pyarrow.array(keys), or keys.compressed() "
                        "if you need no result for the masked values")
    no_mask = type(numbers)
    return 0


cdef int refuse_nan(cython.floating *numbers, size_t items) except -1:
    """numpy has NaN for a missing value, and then makes whole numbers floats, which are other keys."""
    cdef size_t i = 0
    while i < items and numbers[i] == numbers[i]:
        i += 1
    if i < items:
        raise ValueError(f"the key at {i} must not be NaN, which numpy has for a missing value: pass the Arrow array "
                         "that it came from, or pyarrow.array(numbers) if the keys are floats with NaN")
    return 0


# ---- The hashes of each key

cdef int check_offsets(int status, size_t wrong) except -1:
    if status == SKETCH_ERROR_OFFSET:
        raise ValueError(f"the offset at {wrong} is missing, past the end or below the one before")
    return 0


cdef int hash_column(Column column, int words, uint64_t seed, void *out, size_t *wrong) noexcept nogil:
    if column.arrow is None:
        return hash_keys(&column.keys, words, seed, out, wrong)
    return column.arrow.hash(words, seed, <uint64_t *>out, wrong)


cdef object hash_each(Column column, int words, object seed):
    """A word of XXH64 or two of Murmur for each key."""
    cdef uint64_t number = word_of(seed, "a seed")
    cdef size_t wrong = 0
    if column.arrow is not None:
        column.arrow.refuse_nulls()
    hashes = bytearray(8 * words * column.count)
    cdef void *out = PyByteArray_AS_STRING(hashes)
    while True:
        if column.size() < LONG:
            status = hash_column(column, words, number, out, &wrong)
        else:
            with nogil:
                status = hash_column(column, words, number, out, &wrong)
        check_offsets(status, wrong)
        if not column.check_signals_if_more():
            return memoryview(hashes).cast("Q")


def xxh64_each(keys, seed=0):
    """xxh64_each(keys, seed=0)\n--\n\nReturns XXH64 of each key of a column, as a memoryview of whole numbers.

    The keys are numbers of 64 bits, each hashed as its eight little-endian bytes: any buffer, as an array of numpy. Or
    they are a pair of bytes and offsets of 32 or 64 bits, one more than keys: a key is the bytes from its offset up to
    the next. Only unaligned numbers are copied. Raises ValueError if an offset is past the end or below the one before.
    column(texts) returns such a pair. Or they are an Arrow array or stream, of whose values each counts as Parquet
    stores it. Raises ValueError if one is null.
    """
    return hash_each(column_of(keys, word_rule), 1, seed)


def murmur3_x64_128_each(keys, seed=0):
    """murmur3_x64_128_each(keys, seed=0)\n--\n\nReturns MurmurHash3 x64 128 of each key of a column, as a memoryview of
    whole numbers, two for a key.

    The keys are a pair of bytes and offsets, or of Arrow, as xxh64_each takes them. The words of key i are at 2 * i and
    2 * i + 1: numpy.asarray(hashes).reshape(-1, 2) has a row for a key.
    """
    return hash_each(column_of(keys, None), 2, seed)


def column(texts):
    """column(texts, /)\n--\n\nReturns a column of texts or bytes: a pair of their bytes and offsets, for the calls that
    take columns.

    texts is any iterable of str, which become UTF-8, or of bytes: a list, an array of numpy, a Series of pandas. Raises
    TypeError with the index of anything else in it, such as a missing value. An Arrow array is a column as it is.
    """
    if isinstance(texts, (str, bytes)):
        raise TypeError("texts must be many, not one")
    if getattr(getattr(texts, "dtype", None), "kind", None) == "S":
        raise TypeError("texts must not be an array of numpy's type S, which drops zero bytes at their ends: "
                        "pass a list of bytes")
    keys = [text_bytes(i, text) for i, text in enumerate(texts)]
    return b"".join(keys), array.array("Q", itertools.accumulate(map(len, keys), initial=0))


cdef bytes text_bytes(i, text):
    """The bytes of the text itself, whatever methods a subclass has."""
    if isinstance(text, str):
        return PyUnicode_AsUTF8String(text)
    if isinstance(text, bytes):
        return PyBytes_FromStringAndSize(PyBytes_AS_STRING(text), PyBytes_GET_SIZE(text))
    raise TypeError(f"the key at {i} must be str or bytes, not {type(text).__name__}")
