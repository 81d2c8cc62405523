"""Columns: many keys in a call."""
from ._arrow cimport Arrow
from ._common cimport View
from ._keys cimport Keys


cdef class Column:
    cdef object texts  # what data is of: of bytes it is no buffer that could keep them
    cdef object aligned  # a copy of the numbers, if they are not aligned
    cdef View data, numbers  # the bytes of texts; their offsets, or else the numbers
    cdef Keys keys  # in these; of Arrow it is not used
    cdef Arrow arrow
    cdef size_t count  # of keys
    cdef unsigned char *found  # where a look-up writes whether the filter may have each key

    cdef Py_ssize_t size(self) noexcept
    cdef bint check_signals_if_more(self) except -1
    cdef bint overlaps(self, const void *memory, size_t length) noexcept nogil


cdef Column keys_of(object keys)
cdef Column hashes_of(object hashes)
cdef int check_offsets(int status, size_t wrong) except -1
