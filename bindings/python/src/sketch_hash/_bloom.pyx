"""The Bloom filter of Apache Parquet."""
cimport cython
from cpython.buffer cimport PyBUF_C_CONTIGUOUS, PyBUF_FULL_RO, PyBUF_SIMPLE, PyBUF_WRITABLE, PyBuffer_FillInfo
from cpython.bytearray cimport PyByteArray_AS_STRING, PyByteArray_FromStringAndSize
from cpython.bytes cimport PyBytes_AS_STRING, PyBytes_FromStringAndSize
from cpython.ref cimport Py_DECREF, Py_INCREF
from libc.stdint cimport uint32_t, uint64_t, uintptr_t
from libc.string cimport memcpy

from ._columns cimport Column, check_offsets, hashes_of, keys_of
from ._common cimport (
    LONG, Lock, PyBuffer_Release, PyObject_GetBuffer, View, acquire, get_bytes, overlap, refuse_addresses, release, wait,
    word_of, xxh64_of_memory,
)
from ._keys cimport contains_keys, insert_keys
from ._library cimport *

import operator
import pickle
import sys

cdef extern from "Python.h":
    const char *PyUnicode_AsUTF8AndSize(object, Py_ssize_t *) except NULL
    View *PyMemoryView_GET_BUFFER(object)
    bint PyBuffer_IsContiguous(const View *, char)

cdef enum:
    READ_ONLY = -100  # not a status of the library
    OVERLAP = -101

cdef double DEFAULT_RATE = 0.01  # that of add_filters is in parquet/writer.py


cdef inline uint64_t hash_of(object key) except? -1:
    """XXH64 of a key. The filter takes the hash, so a key may be in the filter's own memory."""
    cdef View memory
    if isinstance(key, str):
        memory.obj = NULL  # the str keeps its UTF-8
        memory.buf = <void *>PyUnicode_AsUTF8AndSize(key, &memory.len)
    elif isinstance(key, bytes):
        get_bytes(key, &memory)
    else:
        get_key(key, &memory)
    return xxh64_of_memory(&memory, 0)


cdef type bytes_like = bytearray  # the type of the last key that was bytes: to look again takes a fifth of a call


cdef bint is_key(object key) except -1:
    """Whether it is neither a scalar of numpy (a number or date, whose bytes in a Parquet file may be others; the buffer of
    a date has one dimension, but not the date), nor a masked array, nor a filter, whose bits would be one key."""
    global bytes_like
    if getattr(key, "ndim", 1) == 0 or hasattr(type(key), "mask") or isinstance(key, BloomFilter):
        return False
    bytes_like = type(key)
    return True


cdef int get_key(object key, View *memory) except -1:
    memory.obj = NULL
    is_bytes = False
    try:
        PyObject_GetBuffer(key, memory, PyBUF_C_CONTIGUOUS)
        is_bytes = memory.itemsize == 1 and memory.ndim != 0 and (type(key) is bytes_like or is_key(key))
    except TypeError:
        pass
    finally:
        if not is_bytes:
            PyBuffer_Release(memory)
    if not is_bytes:
        raise TypeError(
            f"a key must be str or bytes, not {type(key).__name__}: "
            "add_each and contains_each take numbers and columns, and |= a filter")
    return 0


ctypedef int (*ColumnCall)(const View *bits, Column column, size_t *wrong) noexcept nogil


cdef int insert_column(const View *bits, Column column, size_t *wrong) noexcept nogil:
    if bits.readonly:
        return READ_ONLY
    if column.overlaps(bits.buf, bits.len):
        return OVERLAP
    if column.arrow is not None:
        return column.arrow.insert(bits.buf, bits.len, wrong)
    return insert_keys(bits.buf, bits.len, &column.keys, wrong)


cdef int contains_column(const View *bits, Column column, size_t *wrong) noexcept nogil:
    if column.arrow is not None:
        return column.arrow.contains(bits.buf, bits.len, column.found, wrong)
    return contains_keys(bits.buf, bits.len, &column.keys, column.found, wrong)


cdef int check_length(object length) except -1:
    if not 0 <= length <= sys.maxsize or sketch_bloom_check(length):
        raise ValueError(
            f"a Bloom filter must have a positive multiple of 32 bytes, below 2**37, not {length}: "
            "BloomFilter.for_keys finds the number for keys and an error rate; from_parquet reads a filter with its header")
    return 0


cdef size_t header_of(const View *memory, uint64_t *num_bytes) except 0:
    cdef size_t header = sketch_bloom_header_read(memory.buf, memory.len, num_bytes)
    if header == 0:
        raise ValueError(
            "data does not begin with the whole header of an uncompressed split block Bloom filter with XXH64: "
            "it is at the column's bloom_filter_offset; from_bytes takes bits alone")
    return header


cdef BloomFilter copy_of(const void *bits, size_t length):
    """A filter with a copy of the bits."""
    check_length(length)
    cdef BloomFilter filter = BloomFilter.__new__(BloomFilter)
    filter.adopt(PyByteArray_FromStringAndSize(<char *>bits, length), None)
    return filter


# The garbage collector breaks a cycle at another object, so an export lives as long as the filter that has it.
@cython.final
@cython.no_gc_clear
cdef class Export:
    """Keeps the memory of a memoryview, which anyone may release who finds it.

    It exports the memory of the owner again. That the export refers to the owner is hidden from the garbage collector, which
    sees `owner` instead: so a cycle is found. The owner is what the memoryview names or, if that exports nothing, as of a
    class with __buffer__, the object that it was made of. If neither exports this memory again, the memoryview itself is
    exported, and a cycle is not found, since CPython crashes if one is cleared with exports.
    """

    cdef View memory
    cdef object owner  # or None

    def __cinit__(self, view, source):
        if self.is_exported_by(view.obj, view) or type(source) is not memoryview and self.is_exported_by(source, view):
            self.owner = <object>self.memory.obj
            Py_DECREF(self.owner)
        else:
            PyObject_GetBuffer(view, &self.memory, PyBUF_FULL_RO)

    cdef bint is_exported_by(self, object owner, object view) except -1:
        """Whether the owner exports the memory of the view again. Then it is kept."""
        try:
            PyObject_GetBuffer(owner, &self.memory, PyBUF_FULL_RO)
        except Exception:  # of the owner's own code
            self.memory.obj = NULL
        if self.memory.obj is not NULL and is_within(PyMemoryView_GET_BUFFER(view), &self.memory):
            return True
        PyBuffer_Release(&self.memory)
        return False

    def __dealloc__(self):
        if self.owner is not None:
            Py_INCREF(self.owner)
        PyBuffer_Release(&self.memory)


cdef bint is_within(const View *part, const View *memory) noexcept:
    cdef uintptr_t begin = <uintptr_t>part.buf, start = <uintptr_t>memory.buf
    return PyBuffer_IsContiguous(memory, c"A") and start <= begin and begin + part.len <= start + memory.len


@cython.final
@cython.no_gc_clear
cdef class BloomFilter:
    """BloomFilter(num_bytes)\n--\n\nThe split block Bloom filter of Apache Parquet, without keys: it tells whether a
    key was added. It has no false negatives, and may have false positives.

    A key is a str, which counts as its UTF-8, or a bytes-like object. Raises ValueError if num_bytes is not a positive
    multiple of 32 below 2**37. Arrow reads only powers of two up to 128 MiB, which for_keys chooses. memoryview(filter)
    shares the bits. Calls of several threads on one filter take turns, so threads and signal handlers may share it.
    """

    cdef View bits  # of an own bytearray, or of a view
    cdef object memory  # what keeps the bits of a view, or None
    cdef Lock lock  # created by the first long call or merge
    cdef Py_ssize_t exports  # how many memoryviews of the bits there are

    PARQUET_HEADER_MAX = SKETCH_BLOOM_HEADER_MAX

    def __init__(self, num_bytes):
        num_bytes = operator.index(num_bytes)
        check_length(num_bytes)
        self.adopt(bytearray(num_bytes), None)

    def __dealloc__(self):
        PyBuffer_Release(&self.bits)

    cdef int adopt(self, object buffer, object memory) except -1:
        """Takes the memory of a buffer, and releases what it had."""
        cdef View bits
        PyObject_GetBuffer(buffer, &bits, PyBUF_SIMPLE)
        try:
            check_length(bits.len)
            self.swap_memory(&bits, memory)
        finally:
            PyBuffer_Release(&bits)
        return 0

    cdef int adopt_memoryview(self, object memory, object source) except -1:
        cdef View bits = PyMemoryView_GET_BUFFER(memory)[0]
        bits.obj = NULL
        check_length(bits.len)
        self.swap_memory(&bits, Export(memory, source))
        PyBuffer_Release(&bits)
        return 0

    cdef int swap_memory(self, View *bits, object memory) except -1:
        """Exchanges the memory. What it had before is in `bits` then, and the caller releases it."""
        cdef View before
        wait(<void *>self.lock)
        self.check_exports()
        before, self.bits = self.bits, bits[0]
        bits[0] = before
        # Cython drops the old object before it stores the new one. Dropped later, it cannot find itself in here.
        memory, self.memory = self.memory, memory
        return 0

    cdef int check_exports(self) except -1:
        if self.exports:
            raise BufferError("memoryviews of the filter exist: release them first")
        return 0

    cdef int begin(self, bint is_long) except -1:
        """Begins a call. A long one ends with release(self.lock)."""
        if is_long:
            self.lock = self.lock or Lock()
            acquire(self.lock)
        else:
            wait(<void *>self.lock)
        return 0

    cdef int check(self, int status) except -1:
        if status == READ_ONLY:
            raise TypeError("this filter is a view of read-only memory: copy() makes one that can be changed")
        if status == OVERLAP:
            raise ValueError("the column is in the filter's own memory: pass a copy of it")
        if status or self.bits.buf is NULL:
            raise ValueError("the filter was released")
        return 0

    @classmethod
    def for_keys(cls, keys, *, error_rate=None, one_in=None):
        """for_keys($type, keys, *, error_rate=None, one_in=None)\n--\n\nReturns the smallest filter whose
        false positive rate is at most this, error_rate=0.01 or one_in=100, once it has so many keys; 0.01 if both are
        left out. Its size is a power of two. Raises ValueError if it would need more than 128 MiB."""
        if error_rate is not None and one_in is not None:
            raise TypeError("for_keys takes one of error_rate, as 0.01, and one_in, as 100")
        if one_in is None:
            one_in = one_in_of(DEFAULT_RATE if error_rate is None else error_rate)
        if one_in == 0:
            raise ValueError("one_in must be at least 1, not 0")
        cdef size_t num_bytes = sketch_bloom_bytes_for(word_of(keys, "keys"), word_of(one_in, "one_in"))
        if num_bytes == 0:
            raise ValueError(f"no filter of up to 128 MiB has {keys} keys and reports one in {one_in} others: "
                             "allow more, or split the keys over several filters")
        return BloomFilter(num_bytes)

    @classmethod
    def from_bytes(cls, data):
        """from_bytes($type, data, /)\n--\n\nReturns a filter with a copy of the bits that to_bytes or another language
        wrote. Raises ValueError if BloomFilter would not take their number."""
        cdef View memory
        get_bytes(data, &memory)
        try:
            return copy_of(memory.buf, memory.len)
        finally:
            PyBuffer_Release(&memory)

    @classmethod
    def from_parquet(cls, data):
        """from_parquet($type, data, /)\n--\n\nReturns the filter at the beginning of data, which is that of a Parquet
        file from its bloom_filter_offset on: a header, and the bits. Bytes after them are ignored. Raises ValueError if
        the header is not that of a split block filter with XXH64, uncompressed, or if bits are missing."""
        cdef View memory
        cdef uint64_t num_bytes = 0
        cdef size_t header
        get_bytes(data, &memory)
        try:
            header = header_of(&memory, &num_bytes)
            if num_bytes > memory.len - header:
                raise ValueError(f"the filter is truncated: it has {num_bytes} bytes after its header, and here are "
                                 f"{memory.len - header}")
            return copy_of(<char *>memory.buf + header, num_bytes)
        finally:
            PyBuffer_Release(&memory)

    @classmethod
    def parquet_bits(cls, data):
        """parquet_bits($type, data, /)\n--\n\nReturns where the bits of the filter at the beginning of data are: a range,
        which may end after data does. data is as for from_parquet; PARQUET_HEADER_MAX bytes of it are enough for the
        headers that writers write. Raises ValueError as from_parquet does, but not if bits are missing."""
        cdef View memory
        cdef uint64_t num_bytes = 0
        get_bytes(data, &memory)
        try:
            header = header_of(&memory, &num_bytes)
        finally:
            PyBuffer_Release(&memory)
        return range(header, header + num_bytes)

    @staticmethod
    def block_offset(num_bytes, hash):
        """block_offset(num_bytes, hash, /)\n--\n\nReturns the offset of the block of a hash in a filter of num_bytes bytes.
        The hash is xxh64 with the seed 0. The 32 bytes of the block are a filter that has the hash if the whole filter has
        it: so of a filter in a file no other bytes are read. Raises ValueError if no filter has that many bytes."""
        num_bytes = operator.index(num_bytes)
        check_length(num_bytes)
        return sketch_bloom_block_offset(num_bytes, word_of(hash, "hash"))

    @classmethod
    def view(cls, buffer):
        """view($type, buffer, /)\n--\n\nReturns the filter in a buffer, such as a mapped file, without a copy.

        A filter in a read-only buffer can be asked, and raises TypeError if a key is added. Nothing else may change the
        buffer during a call: two views of one buffer do not wait for each other. The buffer keeps its length until the
        view is released: by release, at the end of a with block, or with the view itself.
        """
        cdef BloomFilter filter = BloomFilter.__new__(BloomFilter)
        if type(buffer) is bytes or type(buffer) is bytearray:  # with a memoryview, asking many small filters takes 9 % more
            filter.adopt(buffer, buffer)
            return filter
        memory = memoryview(buffer)
        if memory.format != "B":
            refuse_addresses(memory.format)
        if not PyBuffer_IsContiguous(PyMemoryView_GET_BUFFER(memory), c"C"):
            raise BufferError("a view must be of memory that is C-contiguous")
        filter.adopt_memoryview(memory, buffer)
        return filter

    def release(self):
        """release($self)\n--\n\nReleases the memory. Later calls raise ValueError; another release does nothing."""
        cdef View nothing
        nothing.buf, nothing.obj, nothing.len, nothing.readonly = NULL, NULL, 0, 0
        self.swap_memory(&nothing, None)
        PyBuffer_Release(&nothing)

    def __enter__(self):
        """__enter__($self)\n--\n\n"""
        return self

    def __exit__(self, kind, value, traceback):
        """__exit__($self, kind, value, traceback)\n--\n\n"""
        self.release()

    @property
    def num_bytes(self):
        """How many bytes the bits have."""
        wait(<void *>self.lock)
        self.check(0)
        return self.bits.len

    def add(self, key):
        """add($self, key, /)\n--\n\nAdds a key."""
        cdef uint64_t hash = hash_of(key)
        cdef int status
        wait(<void *>self.lock)
        status = READ_ONLY if self.bits.readonly else sketch_bloom_insert_hash(self.bits.buf, self.bits.len, hash)
        if status:
            self.check(status)

    def __contains__(self, key):
        """Whether the filter may have the key. If not, it was certainly not added."""
        cdef uint64_t hash = hash_of(key)
        cdef bint found
        wait(<void *>self.lock)
        found = sketch_bloom_contains_hash(self.bits.buf, self.bits.len, hash)
        if self.bits.buf is NULL:
            self.check(0)
        return found

    def update(self, keys):
        """update($self, keys, /)\n--\n\nAdds each key of an iterable. If one raises TypeError, those before it are
        added."""
        if isinstance(keys, (str, bytes, bytearray, memoryview, BloomFilter)):
            raise TypeError("update takes an iterable of keys: add takes one key, add_each a column, and |= a filter")
        for key in keys:
            self.add(key)

    cdef int for_column(self, ColumnCall call, Column keys) except -1:
        """Makes a call on a column, and again while rows are left."""
        cdef size_t wrong = 0
        cdef int status
        cdef bint is_long = keys.size() >= LONG
        while True:
            self.begin(is_long)
            if is_long:
                with nogil:
                    status = call(&self.bits, keys, &wrong)
                release(self.lock)
            else:
                status = call(&self.bits, keys, &wrong)
            check_offsets(status, wrong)
            self.check(status)
            if not keys.check_signals_if_more():
                return 0

    cdef object contains(self, Column keys):
        found = bytearray(keys.count)
        keys.found = <unsigned char *>PyByteArray_AS_STRING(found)
        self.for_column(contains_column, keys)
        return memoryview(found).cast("?")

    def add_each(self, keys):
        """add_each($self, keys, /)\n--\n\nAdds each key of a column.

        The keys are a pair of bytes and offsets, as for xxh64_each. Or they are numbers of 32 or 64 bits: any buffer,
        such as an array of numpy. Each counts as its four or eight little-endian bytes, as Parquet stores numbers of
        that width; so ask with numbers of the same width. Or they are an Arrow array or stream, of whose values each
        counts as Parquet stores it; a null is not added. If ValueError is raised, nothing was added.
        """
        self.for_column(insert_column, keys_of(keys))

    def contains_each(self, keys):
        """contains_each($self, keys, /)\n--\n\nReturns whether the filter may have each key of a column, as for
        add_each: a memoryview of bools. A null of Arrow is not found."""
        return self.contains(keys_of(keys))

    def add_hashes(self, hashes):
        """add_hashes($self, hashes, /)\n--\n\nAdds the keys with these XXH64 of the seed 0, as of xxh64_each."""
        self.for_column(insert_column, hashes_of(hashes))

    def contains_hashes(self, hashes):
        """contains_hashes($self, hashes, /)\n--\n\nReturns whether the filter may have each key with these XXH64 of the
        seed 0: a memoryview of bools."""
        return self.contains(hashes_of(hashes))

    def __ior__(self, other):
        if not isinstance(other, BloomFilter):
            return NotImplemented
        self.merge(other)
        return self

    cdef int merge(self, BloomFilter source) except -1:
        cdef int status
        if source is self:
            wait(<void *>self.lock)
            return self.check(READ_ONLY if self.bits.readonly else 0)
        # Two merges take the locks in one order, that of addresses, so neither waits for the other for ever.
        cdef BloomFilter first, second
        first, second = (self, source) if <uintptr_t><void *>self < <uintptr_t><void *>source else (source, self)
        self.lock, source.lock = self.lock or Lock(), source.lock or Lock()
        acquire(first.lock)
        acquire(second.lock)
        if self.bits.readonly:
            status = READ_ONLY
        elif overlap(self.bits.buf, self.bits.len, source.bits.buf, source.bits.len):
            status = OVERLAP
        elif self.bits.len < LONG:
            status = sketch_bloom_merge(self.bits.buf, self.bits.len, source.bits.buf, source.bits.len)
        else:
            with nogil:
                status = sketch_bloom_merge(self.bits.buf, self.bits.len, source.bits.buf, source.bits.len)
        release(second.lock)
        release(first.lock)
        source.check(0)
        if status == OVERLAP:
            return self.merge(source.copy())
        self.check(READ_ONLY if status == READ_ONLY else 0)
        if status:
            raise ValueError(f"filters of {self.bits.len} and {source.bits.len} bytes cannot be merged: "
                             "create both with one size")
        return 0

    def __or__(self, other):
        """A new filter with the keys of both, which are unchanged."""
        if not isinstance(self, BloomFilter) or not isinstance(other, BloomFilter):
            return NotImplemented
        cdef BloomFilter filter = self.copy()
        filter.merge(other)
        return filter

    def fold(self, error_rate=None):
        """fold($self, error_rate=None)\n--\n\nMakes the filter half as large: it is then that of this size with the
        same keys. Raises ValueError if its number of blocks of 32 bytes is odd. With an error rate, as 0.01, it is
        halved while other keys are found at this rate at most, by the bits that are set, and may stay as it is: at a rate of
        at most one in n, which is the least whole number that keeps the error rate. So create a filter for all keys, and
        fold it once they are added. Raises TypeError for a view, and BufferError if memoryviews exist."""
        cdef uint64_t one_in = 0 if error_rate is None else one_in_of(error_rate)
        self.begin(True)
        cdef bint has_exports = self.exports != 0, is_view = self.memory is not None, is_odd = self.bits.len % 64 != 0
        try:  # no exception is made here: garbage would be collected, whose code may call the filter
            if not (self.bits.buf is NULL or is_view or has_exports):
                with nogil:
                    if one_in:
                        self.bits.len = sketch_bloom_fold_to(self.bits.buf, self.bits.len, one_in)
                    elif sketch_bloom_fold(self.bits.buf, self.bits.len) == 0:
                        self.bits.len //= 2
        finally:
            release(self.lock)
        self.check(0)
        if has_exports:
            self.check_exports()
        if is_view:
            raise TypeError("a filter to fold must not be a view: copy() makes one that can be folded")
        if is_odd and not one_in:
            raise ValueError(f"a filter to fold must have an even number of blocks, not {self.bits.len // 32}")
        self.shrink()

    cdef int shrink(self) except -1:
        """Gives memory back that a fold has left unused, if there is memory for the copy."""
        wait(<void *>self.lock)
        try:
            self.adopt(PyByteArray_FromStringAndSize(<char *>self.bits.buf, self.bits.len), None)
        except (BufferError, MemoryError, ValueError):  # another thread has made a memoryview, or released the filter
            pass
        return 0

    def __eq__(self, other):
        """Whether both have the same bits."""
        if not isinstance(other, BloomFilter):
            return NotImplemented
        return self.to_bytes() == other.to_bytes()

    __hash__ = None

    def to_bytes(self):
        """to_bytes($self)\n--\n\nReturns a copy of the bits, which are the same on every machine."""
        wait(<void *>self.lock)
        self.check(0)
        return PyBytes_FromStringAndSize(<char *>self.bits.buf, self.bits.len)

    def to_parquet(self):
        """to_parquet($self)\n--\n\nReturns the filter as it is in a Parquet file: a header and the bits. Their length
        is the column's bloom_filter_length. Raises ValueError if the filter has 2**31 bytes or more."""
        cdef unsigned char header[SKETCH_BLOOM_HEADER_MAX]
        wait(<void *>self.lock)
        self.check(0)
        cdef size_t length = sketch_bloom_header_write(self.bits.len, header, sizeof(header))
        if length == 0:
            raise ValueError(f"a filter in a Parquet file must have fewer than 2**31 bytes, not {self.bits.len}")
        stored = PyBytes_FromStringAndSize(NULL, length + self.bits.len)
        memcpy(PyBytes_AS_STRING(stored), header, length)
        memcpy(PyBytes_AS_STRING(stored) + length, self.bits.buf, self.bits.len)
        return stored

    def copy(self):
        """copy($self)\n--\n\nReturns a filter with the same keys in its own memory."""
        cdef BloomFilter filter = BloomFilter.__new__(BloomFilter)  # the garbage collector may run code that changes this one
        wait(<void *>self.lock)
        self.check(0)
        filter.adopt(PyByteArray_FromStringAndSize(<char *>self.bits.buf, self.bits.len), None)
        return filter

    def __reduce_ex__(self, protocol):
        return BloomFilter.from_bytes, (self.to_bytes() if protocol < 5 else pickle.PickleBuffer(self),)

    def __getbuffer__(self, Py_buffer *buffer, int flags):
        wait(<void *>self.lock)
        self.check(0)
        if self.bits.readonly and flags & PyBUF_WRITABLE:
            raise BufferError("the filter is a view of read-only memory")
        Py_DECREF(None)  # Cython has put None into buffer.obj, and PyBuffer_FillInfo replaces it
        PyBuffer_FillInfo(buffer, self, self.bits.buf, self.bits.len, self.bits.readonly, flags)
        self.exports += 1

    def __releasebuffer__(self, Py_buffer *buffer):
        self.exports -= 1

    def __sizeof__(self):
        """The bits count too: a scheduler asks what it costs to move a filter."""
        return object.__sizeof__(self) + self.bits.len

    def __repr__(self):
        if self.bits.buf is NULL:
            return "<sketch_hash.BloomFilter, released>"
        return f"<sketch_hash.BloomFilter of {self.bits.len} bytes>"


cdef object one_in_of(double rate):
    """The smallest number whose reciprocal, as a float, is at most the error rate, or the largest that the library takes."""
    if not 0 < rate < 1:
        raise ValueError(f"error_rate must be above 0 and below 1, as 0.01 for one key in a hundred, not {rate}")
    if rate < 2.0**-63:
        return 2**64 - 1
    one_in = round(1 / rate)
    return one_in if 1 / one_in <= rate else one_in + 1
