"""Columns of keys from Arrow arrays and streams, which are used in place. Only little-endian machines have them."""
cimport cython
from cpython.exc cimport PyErr_CheckSignals
from cpython.pycapsule cimport PyCapsule_GetPointer
from libc.stdint cimport int32_t, int64_t, uint64_t, uintptr_t
from libc.stdlib cimport calloc, free
from libc.string cimport memcpy, memset

from ._common cimport LONG, overlap
from ._keys cimport (
    HASHES, NUMBERS32, NUMBERS64, OFFSETS32, OFFSETS64, Content, Keys, contains_keys, hash_keys, insert_keys,
)
from ._library cimport *

import os
import re
import sys

cdef extern from "Python.h":
    const Py_ssize_t PY_SSIZE_T_MAX

# A call looks for signals, as of Ctrl-C, after so many rows, or bytes of keys: a column may claim many rows without memory.
# Rows that are looked up are hashed in blocks.
cdef enum:
    BLOCK = 1024
    MANY = 1 << 24
    MANY_BYTES = 1 << 30

MOST_ROWS, MOST_BYTES = (sys.maxsize + 1) // 16, sys.maxsize // 2
TYPES = {  # by their formats: the layout of values, their width, and whether they have a sign
    "n": (NOTHING, 0, False), "c": (WIDENED, 1, True), "C": (WIDENED, 1, False), "s": (WIDENED, 2, True),
    "S": (WIDENED, 2, False), "i": (FIXED, 4, True), "I": (FIXED, 4, False), "l": (FIXED, 8, True), "L": (FIXED, 8, False),
    "e": (FIXED, 2, False), "f": (FIXED, 4, False), "g": (FIXED, 8, False), "z": (OFFSETS, 4, True),
    "u": (OFFSETS, 4, True), "Z": (OFFSETS, 8, True), "U": (OFFSETS, 8, True), "vz": (VIEWS, 16, False),
    "vu": (VIEWS, 16, False), "tdD": (FIXED, 4, False), "ttm": (FIXED, 4, False),
    **dict.fromkeys(("ttu", "ttn", "tsm", "tsu", "tsn", "tDs", "tDm", "tDu", "tDn"), (FIXED, 8, False)),
}
CODES = "c", "C", "s", "S", "i", "I", "l", "L"
REFUSED = [  # the start of a format, what it is, and what to do
    ("b", "bools", "Parquet has no Bloom filters of them"),
    ("tdm", "date64", 'Parquet stores days: cast it to "date32"'),
    ("tts", "times in seconds", 'Parquet stores milliseconds: cast it to "time32[ms]"'),
    ("tss", "timestamps in seconds", 'Parquet stores milliseconds: cast it to "timestamp[ms]"'),
    ("d:", "decimals", "their bytes depend on the file: sketch_hash.parquet.add_filters reads them as they are stored"),
    ("+r", "runs", "decode it: pyarrow.compute.run_end_decode(array)"),
    ("+s", "structs", "pass one column of a table, or one field of an array: array.field(0)"),
    ("+", "lists, maps or unions", "pass the values alone: array.flatten()"),
    ("", "another type", "cast it to texts, bytes, numbers, dates or times"),
]


cdef tuple type_of(str format):
    if format in TYPES:
        return TYPES[format]
    if format[:2] == "ts" and format[:3] in TYPES:  # a time zone follows
        return TYPES[format[:3]]
    if re.fullmatch("w:[0-9]+", format) and int(format[2:]) < 2**31:
        return FIXED, int(format[2:]), False
    what, advice = next(rest for start, *rest in REFUSED if format.startswith(start))
    raise TypeError(f"an Arrow column must not have {what}, here {format!r}: {advice}")


cdef inline int64_t load(const char *memory, size_t width, bint is_signed) noexcept nogil:
    """A number that may not be aligned. One of 64 bits has a sign."""
    cdef uint64_t number = 0
    if width == 4:
        memcpy(&number, memory, 4)
    elif width == 8:
        memcpy(&number, memory, 8)
    elif width == 2:
        memcpy(&number, memory, 2)
    else:
        memcpy(&number, memory, 1)
    cdef int shift = 64 - 8 * width if is_signed else 0
    return <int64_t>(number << shift) >> shift


cdef inline bint is_missing(const Values *values, size_t i) noexcept nogil:
    i += values.offset
    if values.valid is NULL:
        return values.layout == NOTHING
    return not values.valid[i // 8] >> i % 8 & 1


cdef inline int64_t number_at(const Values *values, size_t i) noexcept nogil:
    """A code of a dictionary, or an offset of a text."""
    return load(values.memory + (values.offset + i) * values.width, values.width, values.is_signed)


cdef inline bint is_null(const Chunk *chunk, size_t i) noexcept nogil:
    if is_missing(&chunk.rows, i):
        return True
    return chunk.keys is not &chunk.rows and is_missing(chunk.keys, number_at(&chunk.rows, i))


cdef inline size_t key_at(const Values *values, size_t i, const char **key, int32_t *widened) noexcept nogil:
    """Where a value that is not null begins, and how many bytes it has."""
    cdef const char *place = values.memory + (values.offset + i) * values.width
    cdef int64_t begin
    cdef size_t length
    if values.layout == OFFSETS:
        begin = load(place, values.width, True)
        key[0] = values.text + begin
        return load(place + values.width, values.width, True) - begin
    if values.layout == FIXED:
        key[0] = place
        return values.width
    if values.layout == WIDENED:
        widened[0] = load(place, values.width, values.is_signed)
        key[0] = <char *>widened
        return 4
    length = load(place, 4, True)
    key[0] = place + 4
    if length > 12:
        key[0] = <char *>values.texts[load(place + 8, 4, True)] + load(place + 12, 4, True)
    return length


cdef Content content_of(const Chunk *chunk) noexcept nogil:
    """Which call takes the rows in place. It is HASHES if each row must be looked up."""
    cdef const Values *rows = &chunk.rows
    cdef bint is_aligned = (rows.width == 4 or rows.width == 8) and <uintptr_t>rows.memory % rows.width == 0
    if is_aligned and chunk.keys is rows and not chunk.has_nulls:
        if rows.layout == OFFSETS:
            return OFFSETS32 if rows.width == 4 else OFFSETS64
        if rows.layout == FIXED:
            return NUMBERS32 if rows.width == 4 else NUMBERS64
    return HASHES


cdef size_t keys_in_place(const Chunk *chunk, size_t row, Keys *keys) noexcept nogil:
    """The rest of the chunk's rows. Returns how many bytes the texts have."""
    cdef const Values *rows = &chunk.rows
    keys.content, keys.items, keys.count = chunk.content, rows.length - row, rows.length - row
    keys.numbers = rows.memory + (rows.offset + row) * rows.width
    if rows.layout != OFFSETS:
        return 0
    keys.text, keys.reach = rows.text, number_at(rows, rows.length)
    keys.items += 1
    return number_at(rows, rows.length) - number_at(rows, row)


cdef size_t hash_rows(
    const Chunk *chunk, size_t row, size_t *count, int words, uint64_t seed, uint64_t *out
) noexcept nogil:
    """Looks each row up, and writes a word of XXH64 or two of Murmur, or 0 for a null. It may stop before `count` rows,
    since each may be the same long text. Returns how many bytes they have."""
    cdef const char *key
    cdef int32_t widened
    cdef size_t i, length, num_bytes = 0
    cdef bint is_coded = chunk.keys is not &chunk.rows
    for i in range(row, row + count[0]):
        if num_bytes >= MANY_BYTES:
            count[0] = i - row
            break
        if chunk.has_nulls and is_null(chunk, i):
            out[0] = 0
        else:
            length = key_at(chunk.keys, number_at(&chunk.rows, i) if is_coded else i, &key, &widened)
            num_bytes += length
            if words == 1:
                out[0] = sketch_xxh64(key, length, seed)
            else:
                sketch_murmur3_x64_128(key, length, seed, out)
        out += words
    return num_bytes


ctypedef fused Offset:
    int32_t
    int64_t


cdef bint has_wrong_offset(const char *offsets, size_t count, Offset before) noexcept nogil:
    """Whether an offset is below the one before it."""
    cdef Offset offset
    cdef size_t i
    for i in range(count):
        memcpy(&offset, offsets + i * sizeof(Offset), sizeof(Offset))
        if offset < before:
            return True
        before = offset
    return False


cdef bint has_wrong_view(const Values *values, size_t begin, size_t end, size_t *num_bytes) noexcept nogil:
    """Whether a view is not within its text. Adds the bytes of all."""
    cdef const char *view
    cdef int64_t length, text, start
    cdef size_t i
    for i in range(begin, end):
        if not is_missing(values, i):
            view = values.memory + (values.offset + i) * 16
            length, text, start = load(view, 4, True), load(view + 8, 4, True), load(view + 12, 4, True)
            if length < 0:
                return True
            if length > 12:
                if not 0 <= text < <int64_t>values.text_count or start < 0:
                    return True
                if values.texts[text] is NULL or length > load(values.sizes + 8 * text, 8, True) - start:
                    return True
            num_bytes[0] += length
    return False


cdef bint has_wrong_code(const Chunk *chunk, size_t begin, size_t end, size_t *num_bytes) noexcept nogil:
    """Whether a code is not within the dictionary. Adds the bytes of the keys, until a call on them is long."""
    cdef const char *key
    cdef int32_t widened
    cdef int64_t code
    cdef size_t i
    for i in range(begin, end):
        if not is_missing(&chunk.rows, i):
            code = number_at(&chunk.rows, i)
            if not 0 <= code < <int64_t>chunk.keys.length:
                return True
            if num_bytes[0] < LONG and not is_missing(chunk.keys, code):
                num_bytes[0] += key_at(chunk.keys, code, &key, &widened)
    return False


cdef int require(bint holds, str what) except -1:
    if not holds:
        raise ValueError(f"an Arrow array must {what}")
    return 0


cdef int read_values(const ArrowArray *array, tuple type, Values *values) except -1:
    """Checks all but the values themselves."""
    values.layout, values.width, values.is_signed = type
    cdef size_t most = 3 if values.layout == OFFSETS else 2
    has_place = 0 <= array.length < MOST_ROWS and 0 <= array.offset < MOST_ROWS
    require(has_place, f"have a length and an offset from 0 to {MOST_ROWS - 1}")
    require((<object>array.length + array.offset) * values.width <= MOST_BYTES, f"have at most {MOST_BYTES} bytes")
    values.offset, values.length = array.offset, array.length
    if values.layout == NOTHING:
        return 0
    require(array.n_buffers >= 3 if values.layout == VIEWS else array.n_buffers == most, "have the buffers of its type")
    require(array.buffers is not NULL and array.n_children == 0, "have buffers, and no children")
    values.valid = <unsigned char *>array.buffers[0] if array.null_count else NULL
    require(array.null_count <= 0 or values.valid is not NULL, "have a bitmap if it has nulls")
    values.memory = <char *>array.buffers[1]
    require(values.memory is not NULL or not values.length or not values.width, "have memory for its values")
    if values.layout == OFFSETS:
        values.text = <char *>array.buffers[2]
    elif values.layout == VIEWS:
        values.texts = array.buffers + 2
        values.text_count = array.n_buffers - 3
        values.sizes = <char *>array.buffers[array.n_buffers - 1]
        require(values.sizes is not NULL or not values.text_count, "have the sizes of its texts")
    return 0


cdef size_t check_values(const Values *values, bint are_offsets_checked) except? 0:
    """Returns about how many bytes there are to read."""
    cdef size_t num_bytes = values.length * (8 + values.width), begin, end
    cdef int64_t start, stop
    cdef const char *first
    cdef bint is_wrong
    cdef bint is_checked = values.layout == VIEWS or values.layout == OFFSETS and not are_offsets_checked
    what = "have views within its texts" if values.layout == VIEWS else "have offsets from 0 on that do not fall"
    for begin in range(0, values.length if is_checked else 0, MANY):
        end = min(begin + MANY, values.length)
        first = values.memory + (values.offset + begin) * values.width
        with nogil:
            if values.layout == VIEWS:
                is_wrong = has_wrong_view(values, begin, end, &num_bytes)
            elif values.width == 4:
                is_wrong = has_wrong_offset[int32_t](first, end - begin + 1, 0)
            else:
                is_wrong = has_wrong_offset[int64_t](first, end - begin + 1, 0)
        require(not is_wrong, what)
        PyErr_CheckSignals()
    if values.layout == OFFSETS and values.length:
        start, stop = number_at(values, 0), number_at(values, values.length)
        require(0 <= start <= stop <= PY_SSIZE_T_MAX, what)
        require(values.text is not NULL or start == stop, "have memory for its texts")
        num_bytes += stop - start
    return num_bytes


cdef size_t check_codes(const Chunk *chunk) except? 0:
    """Returns how many bytes the keys have in all rows, or LONG or more."""
    cdef size_t num_bytes = 0, begin, length = chunk.rows.length
    cdef bint is_wrong
    for begin in range(0, length, MANY):
        with nogil:
            is_wrong = has_wrong_code(chunk, begin, min(begin + MANY, length), &num_bytes)
        require(not is_wrong, "have codes within its dictionary")
        PyErr_CheckSignals()
    return num_bytes


cdef bint values_overlap(const Values *values, const void *memory, size_t length) noexcept nogil:
    cdef bint is_text = values.layout == OFFSETS
    cdef size_t i, begin, size = (values.length + is_text) * values.width
    if not values.length or values.layout == NOTHING:
        return False
    if values.valid is not NULL and overlap(values.valid + values.offset // 8, values.length // 8 + 2, memory, length):
        return True
    if is_text:
        begin = number_at(values, 0)
        if overlap(values.text + begin, number_at(values, values.length) - begin, memory, length):
            return True
    for i in range(values.text_count):
        if overlap(values.texts[i], load(values.sizes + 8 * i, 8, True), memory, length):
            return True
    return overlap(values.memory + values.offset * values.width, size, memory, length)


cdef bint exports_arrow(object keys) except -1:
    """By the class, as for other special methods: pyarrow.Array itself has them too."""
    return hasattr(type(keys), "__arrow_c_array__") or hasattr(type(keys), "__arrow_c_stream__")


@cython.no_gc
cdef class Arrow:
    def __cinit__(self, keys):
        cls = type(keys)
        if hasattr(cls, "__arrow_c_array__"):
            schema, array = cls.__arrow_c_array__(keys)
            self.import_array(schema, array)
        else:
            self.import_stream(cls.__arrow_c_stream__(keys))

    def __dealloc__(self):
        cdef Chunk *chunk
        with nogil:  # what is released may wait for a thread that needs the GIL
            while self.first is not NULL:
                chunk = self.first
                self.first = chunk.next
                if chunk.array.release is not NULL:
                    chunk.array.release(&chunk.array)
                free(chunk)
            if self.schema.release is not NULL:
                self.schema.release(&self.schema)
            if self.stream.release is not NULL:
                self.stream.release(&self.stream)

    cdef int import_array(self, object schema, object array) except -1:
        cdef ArrowSchema *exported_schema = <ArrowSchema *>PyCapsule_GetPointer(schema, "arrow_schema")
        cdef ArrowArray *exported_array = <ArrowArray *>PyCapsule_GetPointer(array, "arrow_array")
        self.schema = exported_schema[0]
        exported_schema.release = NULL
        self.read_schema()
        require(exported_array.release is not NULL, "not be released")
        return self.append(exported_array, is_alone=True)

    cdef int import_stream(self, object capsule) except -1:
        """Imports all arrays of a stream, which may wait for a thread that needs the GIL."""
        cdef ArrowArrayStream *stream = <ArrowArrayStream *>PyCapsule_GetPointer(capsule, "arrow_array_stream")
        cdef ArrowArray array
        self.stream = stream[0]
        stream.release = NULL
        require(self.stream.release is not NULL, "not be released")
        with nogil:
            status = self.stream.get_schema(&self.stream, &self.schema)
        if status:
            self.schema.release = NULL
        self.check_stream(status)
        self.read_schema()
        while True:
            memset(&array, 0, sizeof(array))
            with nogil:
                status = self.stream.get_next(&self.stream, &array)
            self.check_stream(status)
            if array.release is NULL:
                return 0
            self.append(&array, is_alone=False)
            PyErr_CheckSignals()

    cdef int check_stream(self, int status) except -1:
        if status:
            text = self.stream.get_last_error(&self.stream)
            reason = os.strerror(status) if text is NULL else text.decode("utf-8", "replace")
            raise ValueError(f"the Arrow stream failed: {reason}")
        return 0

    cdef int read_schema(self) except -1:
        cdef ArrowSchema *of_keys = self.schema.dictionary
        require(self.schema.release is not NULL and self.schema.format is not NULL, "have a schema with a format")
        self.rows = type_of(self.schema.format.decode())
        if of_keys is not NULL:
            is_coded = self.schema.format.decode() in CODES and of_keys.format is not NULL
            require(is_coded, "have whole numbers as codes of a dictionary")
            if of_keys.dictionary is not NULL:
                raise TypeError("an Arrow column must not have a dictionary of dictionaries: cast it to its values")
            self.keys = type_of(of_keys.format.decode())
        return 0

    cdef int append(self, ArrowArray *array, bint is_alone) except -1:
        """Takes an array, and checks it. All are checked before the first is used, so that a call that raises changes
        nothing. Of texts that are one array without nulls, the call that takes them checks the offsets: that takes 0.94 of the
        time of blocks of hashes, or up to 1.09 in a filter larger than the cache."""
        cdef Chunk *chunk = <Chunk *>calloc(1, sizeof(Chunk))
        if chunk is NULL:
            with nogil:  # what is released may wait for a thread that needs the GIL
                array.release(array)
            raise MemoryError("no memory for an Arrow array")
        chunk.array = array[0]
        array.release = NULL
        chunk.keys = &chunk.rows
        if self.last is NULL:
            self.first = self.chunk = chunk
        else:
            self.last.next = chunk
        self.last = chunk
        read_values(&chunk.array, self.rows, &chunk.rows)
        require((chunk.array.dictionary is NULL) == (self.keys is None), "have a dictionary if its type has one")
        if self.keys is not None:
            chunk.keys = &chunk.dictionary
            read_values(chunk.array.dictionary, self.keys, &chunk.dictionary)
        chunk.has_nulls = (chunk.rows.valid is not NULL or chunk.keys.valid is not NULL
                           or chunk.keys.layout == NOTHING)
        chunk.content = content_of(chunk)
        self.count += chunk.rows.length
        require(self.count < MOST_ROWS, f"have less than {MOST_ROWS} values")
        is_one_call = is_alone and chunk.content in (OFFSETS32, OFFSETS64)
        self.num_bytes += chunk.rows.length * 8 + check_values(chunk.keys, is_one_call)
        if self.keys is not None:
            self.num_bytes += check_codes(chunk)
        return 0

    cdef int refuse_nulls(self) except -1:
        cdef const Chunk *chunk = self.first
        cdef size_t i, before = 0
        while chunk is not NULL:
            for i in range(chunk.rows.length if chunk.has_nulls else 0):
                if is_null(chunk, i):
                    raise ValueError(f"the key at {before + i} must not be null: a null has no hash")
                if i % MANY == MANY - 1:
                    PyErr_CheckSignals()
            before += chunk.rows.length
            chunk = chunk.next
        return 0

    cdef bint overlaps(self, const void *memory, size_t length) noexcept nogil:
        cdef const Chunk *chunk = self.first
        while chunk is not NULL:
            if values_overlap(&chunk.rows, memory, length) or values_overlap(chunk.keys, memory, length):
                return True
            chunk = chunk.next
        return False

    cdef void advance(self, size_t count) noexcept nogil:
        self.row += count
        self.done += count
        self.work += count * (MANY_BYTES // MANY)
        while self.chunk is not NULL and self.row == self.chunk.rows.length:
            self.chunk, self.row = self.chunk.next, 0

    cdef bint has_rows(self) noexcept nogil:
        """Whether there are more rows for this call, which goes past those that are only nulls."""
        while self.chunk is not NULL and (self.row == self.chunk.rows.length or self.chunk.keys.layout == NOTHING):
            self.advance(self.chunk.rows.length - self.row)
        return self.chunk is not NULL and self.work < MANY_BYTES

    cdef void take_keys(self, Keys *keys, uint64_t *hashes) noexcept nogil:
        """The next rows, in place, or as hashes. These are few enough to stay in the cache."""
        cdef size_t count
        if self.chunk.content != HASHES:
            self.work += keys_in_place(self.chunk, self.row, keys)
        else:
            count = min(<size_t>BLOCK, self.chunk.rows.length - self.row)
            self.work += hash_rows(self.chunk, self.row, &count, 1, 0, hashes)
            keys.content, keys.numbers, keys.items, keys.count = HASHES, hashes, count, count

    cdef int insert(self, void *bits, size_t length, size_t *wrong) noexcept nogil:
        """Inserts the keys of the next rows, without nulls."""
        cdef uint64_t hashes[BLOCK]
        cdef Keys keys
        cdef size_t i
        cdef int status = 0
        while status == 0 and self.has_rows():
            self.take_keys(&keys, hashes)
            if self.chunk.has_nulls:
                keys.items = 0
                for i in range(keys.count):
                    hashes[keys.items] = hashes[i]
                    keys.items += not is_null(self.chunk, self.row + i)
            status = insert_keys(bits, length, &keys, wrong)
            self.advance(keys.count)
        return status

    cdef int contains(self, const void *bits, size_t length, unsigned char *found, size_t *wrong) noexcept nogil:
        """Writes to `found` 1 for each key of the next rows that the filter may have, where all bytes are 0 before."""
        cdef uint64_t hashes[BLOCK]
        cdef Keys keys
        cdef unsigned char *to
        cdef size_t i
        cdef int status = 0
        while status == 0 and self.has_rows():
            self.take_keys(&keys, hashes)
            to = found + self.done
            status = contains_keys(bits, length, &keys, to, wrong)
            for i in range(keys.count if self.chunk.has_nulls else 0):
                to[i] &= not is_null(self.chunk, self.row + i)
            self.advance(keys.count)
        return status

    cdef int hash(self, int words, uint64_t seed, uint64_t *out, size_t *wrong) noexcept nogil:
        """Writes a word of XXH64 or two of Murmur for each of the next rows, none of which is null."""
        cdef Keys keys
        cdef Content content
        cdef uint64_t *to
        cdef size_t count
        cdef int status = 0
        while status == 0 and self.has_rows():
            content, to = self.chunk.content, out + words * self.done
            count = self.chunk.rows.length - self.row
            if content in (OFFSETS32, OFFSETS64) or content == NUMBERS64 and words == 1:
                self.work += keys_in_place(self.chunk, self.row, &keys)
                status = hash_keys(&keys, words, seed, to, wrong)
            else:
                count = min(count, <size_t>MANY)
                self.work += hash_rows(self.chunk, self.row, &count, words, seed, to)
            self.advance(count)
        return status
