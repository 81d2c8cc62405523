"""Arguments of calls, and locks of objects that threads share."""
from cpython.buffer cimport PyBUF_FORMAT, PyBUF_ND
from cpython.pythread cimport PyThread_allocate_lock, PyThread_free_lock
from libc.stdint cimport uint64_t
from libc.string cimport strpbrk

import re

cdef extern from "Python.h":
    object PyNumber_Index(object)
    uint64_t PyLong_AsUnsignedLongLong(object) except? -1


cdef int get_buffer(object data, View *memory) except -1:
    if isinstance(data, str):
        raise TypeError("a str has no bytes until it is encoded: pass data.encode()")
    try:
        PyObject_GetBuffer(data, memory, PyBUF_ND | PyBUF_FORMAT)
    except ValueError:  # numpy has no format for dates
        refuse_addresses("O" if getattr(getattr(data, "dtype", None), "hasobject", False) else "")
        PyObject_GetBuffer(data, memory, PyBUF_ND)
    if memory.format is not NULL and strpbrk(memory.format, "OPXZz&") is not NULL:
        try:
            refuse_addresses(memory.format.decode("latin-1"))
        except:
            PyBuffer_Release(memory)
            raise
    return 0


cdef int refuse_addresses(str format) except -1:
    """Z with d, f or g is a complex number. Names of fields are between colons."""
    if re.search("[OPXz&]|Z(?![dfg])", "".join(format.split(":")[::2])):
        raise TypeError("data must be bytes, not addresses of objects: encode each object, and pass its bytes")
    return 0


cdef uint64_t word_of(object number, str name) except? -1:
    number = PyNumber_Index(number)
    try:
        return PyLong_AsUnsignedLongLong(number)
    except OverflowError:
        raise OverflowError(f"{name} must be from 0 to 2**64 - 1") from None


cdef class Lock:
    def __cinit__(self):
        self.handle = PyThread_allocate_lock()
        if self.handle is NULL:
            raise MemoryError("no memory for a lock")

    def __dealloc__(self):
        if self.handle is not NULL:
            PyThread_free_lock(self.handle)
