"""Thrift's compact protocol, as far as the footers of Parquet files need it.

Values are read in place. A footer that was made to cost time or memory has no more than its length, since no list is
longer than the bytes after it, and nothing is nested deeply. Apache Thrift's library has no such limits: a byte of such a
footer may take 72 bytes of memory there, and one number 32 seconds.
https://github.com/apache/thrift/blob/master/doc/specs/thrift-compact-protocol.md
"""
from cpython.bytes cimport PyBytes_AS_STRING
from libc.stdint cimport int64_t, uint64_t

# The kinds of values. A field that is a bool has its value in its kind.
cpdef enum:
    TRUE = 1
    FALSE = 2
    BYTE = 3
    I16 = 4
    I32 = 5
    I64 = 6
    F64 = 7
    BINARY = 8
    LIST = 9
    STRUCT = 12

cdef enum:
    MOST_DEPTH = 64  # of lists and structs in each other. parquet.thrift itself needs 8.


cdef class Reader:
    """Reads values from the place `at` of the data on."""

    cdef readonly bytes data
    cdef public Py_ssize_t at

    def __init__(self, bytes data not None, at):
        self.data, self.at = data, at

    cdef int byte(self) except -1:
        if not 0 <= self.at < len(self.data):
            raise ValueError("a value is truncated")
        self.at += 1
        return <unsigned char>PyBytes_AS_STRING(self.data)[self.at - 1]

    cdef int varint(self, uint64_t *number) except -1:
        cdef uint64_t byte
        cdef int shift
        number[0] = 0
        for shift in range(0, 70, 7):
            byte = self.byte()
            number[0] |= (byte & 127) << shift
            if byte < 128:
                if shift == 63 and byte > 1:
                    raise ValueError("a number must have at most 64 bits")
                return 0
        raise ValueError("a number must have at most 10 bytes")

    cdef int64_t zigzag(self, int bits) except? -1:
        cdef uint64_t number = 0
        self.varint(&number)
        if bits < 64 and number >> bits:
            raise ValueError(f"a number must have at most {bits} bits")
        return <int64_t>(number >> 1) ^ -<int64_t>(number & 1)

    cdef int field(self, int number) except -1:
        """The field after that of a number: 16 times its number and its kind. It is 0 at the end of a struct."""
        cdef int head = self.byte()
        if head == 0:
            return 0
        number = number + (head >> 4) if head > 15 else <int>self.zigzag(16)
        if not 0 < number < 1 << 15:
            raise ValueError("the number of a field must be from 1 to 32767")
        return number << 4 | head & 15

    cdef int items(self, Py_ssize_t *count) except -1:
        """How many items a list has, which follow. Returns their kind."""
        cdef int head = self.byte()
        cdef uint64_t number = head >> 4
        if number == 15:
            self.varint(&number)
        if number > <uint64_t>(len(self.data) - self.at):
            raise ValueError("a list is truncated")
        count[0] = number
        return head & 15

    cdef int skip_bytes(self, uint64_t length) except -1:
        if length > <uint64_t>(len(self.data) - self.at):
            raise ValueError("a value is truncated")
        self.at += length
        return 0

    cdef int skip_value(self, int kind, int depth) except -1:
        cdef uint64_t number = 0
        if kind in (I16, I32, I64):
            self.varint(&number)
        elif kind == BINARY:
            self.varint(&number)
            self.skip_bytes(number)
        elif kind in (STRUCT, LIST):
            if depth == MOST_DEPTH:
                raise ValueError(f"lists and structs must be at most {MOST_DEPTH} deep")
            self.skip_items(depth + 1) if kind == LIST else self.skip_fields(depth + 1)
        elif kind == F64:
            self.skip_bytes(8)
        elif kind == BYTE:
            self.skip_bytes(1)
        elif kind not in (TRUE, FALSE):
            raise ValueError("no value of a footer is a map, a set or of another kind")
        return 0

    cdef int skip_items(self, int depth) except -1:
        cdef Py_ssize_t count = 0
        cdef int kind = self.items(&count)
        if kind <= BYTE:
            return self.skip_bytes(count)
        for _ in range(count):
            self.skip_value(kind, depth)
        return 0

    cdef int skip_fields(self, int depth) except -1:
        cdef int field = self.field(0)
        while field:
            self.skip_value(field & 15, depth)
            field = self.field(field >> 4)
        return 0

    def integer(self, bits):
        return self.zigzag(bits)

    def skip(self, kind):
        self.skip_value(kind, 0)

    def bytes_of(self, kind):
        """The bytes of a value."""
        begin = self.at
        self.skip_value(kind, 0)
        return self.data[begin:self.at]

    def fields(self):
        """The number and kind of each field of a struct. It is skipped unless the caller reads it."""
        cdef int field = self.field(0)
        cdef Py_ssize_t before
        while field:
            before = self.at
            yield field >> 4, field & 15
            if self.at == before:
                self.skip_value(field & 15, 0)
            field = self.field(field >> 4)

    def structs(self):
        """How many structs a list has, which follow."""
        cdef Py_ssize_t count = 0
        if self.items(&count) != STRUCT and count:
            raise ValueError("a list has another type than in parquet.thrift")
        return range(count)

    def struct(self, dict kinds):
        """The values of the fields in `kinds`, by their numbers; of lists and structs, where they begin."""
        found = {}
        cdef int field = self.field(0), kind
        while field:
            number, kind = field >> 4, field & 15
            expected = kinds.get(number)
            if expected is None:
                self.skip_value(kind, 0)
            elif number in found or (TRUE if kind == FALSE else kind) != expected:
                raise ValueError(f"field {number} is there twice, or has another type than in parquet.thrift")
            else:
                found[number] = self.value(kind)
            field = self.field(field >> 4)
        return found

    cdef object value(self, int kind):
        """Reads a value. Of a list or a struct it returns where that begins."""
        cdef uint64_t length = 0
        if kind == BINARY:
            self.varint(&length)
            self.skip_bytes(length)
            return self.data[self.at - length:self.at]
        if kind in (I32, I64):
            return self.zigzag(32 if kind == I32 else 64)
        begin = self.at
        self.skip_value(kind, 0)
        return kind == TRUE if kind in (TRUE, FALSE) else begin


def varint(number):
    data = bytearray()
    while number > 127:
        data.append(number & 127 | 128)
        number >>= 7
    data.append(number)
    return data


def zigzag(number):
    return varint(number << 1 if number >= 0 else ~number << 1 | 1)


def list_of(structs):
    return b"".join([bytes([15 << 4 | STRUCT]), varint(len(structs)), *(struct.end() for struct in structs)])


class Writer:
    """Writes a struct."""

    def __init__(self):
        self.data, self.number = bytearray(), 0

    def field(self, number, kind, value=b""):
        step, self.number = number - self.number, number
        if 0 < step < 16:
            self.data.append(step << 4 | kind)
        else:
            self.data.append(kind)
            self.data += zigzag(number)
        self.data += value
        return self

    def copy(self, reader, numbers):
        """Copies some fields of a struct."""
        for number, kind in reader.fields():
            if number in numbers:
                self.field(number, kind, reader.bytes_of(kind))
        return self

    def end(self):
        self.data.append(0)
        return bytes(self.data)
