"""Arguments of calls, their XXH64, and locks of objects that threads share."""
from cpython.bytes cimport PyBytes_AS_STRING, PyBytes_Check, PyBytes_GET_SIZE
from cpython.object cimport PyObject
from cpython.pythread cimport (
    NOWAIT_LOCK, WAIT_LOCK, PyThread_acquire_lock, PyThread_release_lock, PyThread_type_lock,
)
from libc.stdint cimport uint64_t, uintptr_t

from ._library cimport sketch_xxh64

cdef extern from "Python.h":
    # Cython counts no references of a struct with this name, so obj may be NULL.
    ctypedef struct View "Py_buffer":
        void *buf
        PyObject *obj
        Py_ssize_t len, itemsize
        int readonly, ndim
        char *format
    int PyObject_GetBuffer(object, View *, int) except -1
    void PyBuffer_Release(View *)


cdef int get_buffer(object data, View *memory) except -1
cdef int refuse_addresses(str format) except -1
cdef uint64_t word_of(object number, str name) except? -1


cdef inline int get_bytes(object data, View *memory) except -1:
    """The memory of a bytes-like object, until it is released."""
    if not PyBytes_Check(data):
        return get_buffer(data, memory)
    memory.buf = PyBytes_AS_STRING(data)
    memory.len = PyBytes_GET_SIZE(data)
    memory.obj = NULL  # the caller keeps the bytes
    return 0


cdef inline bint overlap(const void *one, size_t size, const void *other, size_t length) noexcept nogil:
    """Whether two ranges of memory have a byte in common."""
    return <uintptr_t>one < <uintptr_t>other + length and <uintptr_t>other < <uintptr_t>one + size


# ---- Locks

# Calls of several threads on one object take turns. A short call keeps Python's lock, the GIL. A call on 64 KiB or more
# releases the GIL, and holds a lock of the object until it is done. Every other call on that object waits for it.
cdef enum:
    LONG = 65536  # bytes


cdef class Lock:
    cdef PyThread_type_lock handle
    cdef bint is_taken  # by a long call


cdef inline void acquire(Lock lock) noexcept:
    """Begins a long call on the object that has the lock."""
    if not PyThread_acquire_lock(lock.handle, NOWAIT_LOCK):
        with nogil:  # the holder needs the GIL to release the lock
            PyThread_acquire_lock(lock.handle, WAIT_LOCK)
    lock.is_taken = True


cdef inline void release(Lock lock) noexcept:
    lock.is_taken = False
    PyThread_release_lock(lock.handle)


cdef inline bint is_held(void *lock) noexcept:
    """Whether a long call holds the lock, which is None until the object has its first long call. It is a `void *`, since
    counting references to it would take 5 % of a short call."""
    return lock is not <void *>None and (<Lock>lock).is_taken


cdef inline void wait(void *lock) noexcept:
    """Begins a short call, which keeps the GIL, so that no long call begins before it is done."""
    if is_held(lock):
        with nogil:
            PyThread_acquire_lock((<Lock>lock).handle, WAIT_LOCK)
        PyThread_release_lock((<Lock>lock).handle)


cdef inline uint64_t xxh64_of_memory(View *memory, uint64_t seed) noexcept:
    """Hashes a buffer, without the GIL if it is long, and releases it."""
    cdef uint64_t hash
    if memory.len < LONG:
        hash = sketch_xxh64(memory.buf, memory.len, seed)
    else:
        with nogil:
            hash = sketch_xxh64(memory.buf, memory.len, seed)
    PyBuffer_Release(memory)
    return hash
