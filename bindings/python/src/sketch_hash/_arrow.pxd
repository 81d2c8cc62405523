"""The Arrow C data interface: https://arrow.apache.org/docs/format/CDataInterface.html"""
from libc.stdint cimport int64_t, uint64_t

from ._keys cimport Content, Keys


cdef struct ArrowSchema:
    const char *format
    const char *name
    const char *metadata
    int64_t flags, n_children
    ArrowSchema **children
    ArrowSchema *dictionary
    void (*release)(ArrowSchema *) noexcept nogil
    void *private_data

cdef struct ArrowArray:
    int64_t length, null_count, offset, n_buffers, n_children
    const void **buffers
    ArrowArray **children
    ArrowArray *dictionary
    void (*release)(ArrowArray *) noexcept nogil
    void *private_data

cdef struct ArrowArrayStream:
    int (*get_schema)(ArrowArrayStream *, ArrowSchema *) noexcept nogil
    int (*get_next)(ArrowArrayStream *, ArrowArray *) noexcept nogil
    const char *(*get_last_error)(ArrowArrayStream *) noexcept nogil
    void (*release)(ArrowArrayStream *) noexcept nogil
    void *private_data

cdef enum Layout:
    NOTHING, FIXED, WIDENED, OFFSETS, VIEWS  # all null; values; values that Parquet stores in 32 bits; texts; views

cdef struct Values:  # of an array, or of a dictionary
    Layout layout
    size_t width  # of a value, a code or an offset
    bint is_signed
    size_t offset, length
    const unsigned char *valid  # a bit for each value, or NULL
    const char *memory  # of the values, codes, offsets or views
    const char *text  # the bytes of texts
    const void **texts  # the bytes of views, with their sizes
    const char *sizes
    size_t text_count

cdef struct Chunk:
    ArrowArray array
    Values rows, dictionary
    Values *keys  # the rows, or the dictionary whose codes they are
    bint has_nulls
    Content content  # which call takes the rows in place, or HASHES
    Chunk *next


cdef bint exports_arrow(object keys) except -1


cdef class Arrow:
    """A column of keys in chunks. A call works on the next rows of it, until there is no next chunk."""
    cdef ArrowSchema schema
    cdef ArrowArrayStream stream
    cdef Chunk *first
    cdef Chunk *last
    cdef tuple rows, keys  # their types; that of the keys is None without a dictionary
    cdef size_t count, num_bytes  # how many keys, and about how many bytes to read
    cdef const Chunk *chunk  # of the next rows
    cdef size_t row, done  # which of its rows is next, and how many rows are before it in all chunks
    cdef size_t work  # about how many bytes the call has read

    cdef int import_array(self, object schema, object array) except -1
    cdef int import_stream(self, object capsule) except -1
    cdef int check_stream(self, int status) except -1
    cdef int read_schema(self) except -1
    cdef int append(self, ArrowArray *array, bint is_alone) except -1
    cdef int refuse_nulls(self) except -1
    cdef bint overlaps(self, const void *memory, size_t length) noexcept nogil
    cdef void advance(self, size_t count) noexcept nogil
    cdef bint has_rows(self) noexcept nogil
    cdef void take_keys(self, Keys *keys, uint64_t *hashes) noexcept nogil
    cdef int hash(self, int words, uint64_t seed, uint64_t *out, size_t *wrong) noexcept nogil
    cdef int insert(self, void *bits, size_t length, size_t *wrong) noexcept nogil
    cdef int contains(self, const void *bits, size_t length, unsigned char *found, size_t *wrong) noexcept nogil
