"""XXH64 and MurmurHash3 x64 128: streams, and hashes in one call."""
cimport cython
from cpython.bytes cimport PyBytes_AS_STRING, PyBytes_FromStringAndSize
from libc.stdint cimport uint16_t, uint32_t, uint64_t
from libc.string cimport memcpy

from ._common cimport LONG, Lock, PyBuffer_Release, View, acquire, get_bytes, release, wait, word_of, xxh64_of_memory
from ._library cimport *

cdef extern from "Python.h":
    object PyUnicode_FromStringAndSize(const char *, Py_ssize_t)
    uint32_t __builtin_bswap32(uint32_t)
    uint64_t __builtin_bswap64(uint64_t)


cdef inline object digest_of(const uint64_t *words, int count):
    """The bytes of words, the highest byte of each first. This runs on little-endian machines alone."""
    cdef int i
    cdef uint64_t swapped[2]
    for i in range(count):
        swapped[i] = __builtin_bswap64(words[i])
    return PyBytes_FromStringAndSize(<char *>swapped, 8 * count)


cdef inline uint64_t hex_digits(uint32_t word) noexcept:
    """Eight digits as bytes, the highest digit lowest. Each step works on all digits at once: with "%016x" a call takes
    1.8 times as long."""
    cdef uint64_t ones = 0x0101010101010101ULL, digits = __builtin_bswap32(word)
    digits = (digits | digits << 16) & 0x0000FFFF0000FFFFULL
    digits = (digits | digits << 8) & 0x00FF00FF00FF00FFULL
    digits = (digits >> 4 | digits << 8) & 15 * ones
    cdef uint64_t is_letter = (digits + 118 * ones) >> 7 & ones
    return digits + 48 * ones + 39 * is_letter  # 48 is "0", and 48 + 39 + 10 is "a"


cdef inline object hex_of(const uint64_t *words, int count):
    cdef int i
    cdef uint64_t digits[4]
    for i in range(count):
        digits[2 * i], digits[2 * i + 1] = hex_digits(words[i] >> 32), hex_digits(<uint32_t>words[i])
    return PyUnicode_FromStringAndSize(<char *>digits, 16 * count)


cdef inline object int_of(const uint64_t *words, int count):
    return words[0] if count == 1 else (<object>words[0] << 64) + words[1]


cdef union State:
    sketch_xxh64_state_t xxh64
    sketch_murmur3_x64_128_state_t murmur


# The list of free objects serves both classes, so the state of each is here. Each class defines its frequent methods
# itself: since Python 3.11 a call of one that it inherits takes 1.3 times as many instructions.
@cython.no_gc
@cython.freelist(8)
cdef class _Hasher:
    """A hash of a stream that comes in pieces, but for what is of one hash."""

    cdef State state
    cdef uint64_t start_seed
    cdef Lock lock  # created by the first long call

    def __init__(self, data=b"", seed=0):
        cdef uint64_t number = word_of(seed, "a seed")
        self.append(data, &number)

    cdef void start(self, uint64_t seed) noexcept nogil:
        """Drops all data."""

    cdef void feed(self, const void *data, size_t length) noexcept nogil:
        """Appends data."""

    cdef int answer(self, uint64_t *words) noexcept:
        """Waits for a long call, writes the words of the hash of all data so far, and returns how many these are."""
        return 0

    @cython.final
    cdef size_t state_size(self) noexcept:
        return sizeof(self.state.xxh64) if type(self) is xxh64 else sizeof(self.state.murmur)

    @cython.final
    cdef inline void consume(self, const View *data, const uint64_t *seed) noexcept nogil:
        if seed is not NULL:
            self.start(seed[0])
        self.feed(data.buf, data.len)

    @cython.final
    cdef inline int append(self, object data, const uint64_t *seed) except -1:
        """Appends data, with a seed to a new stream."""
        cdef View memory
        get_bytes(data, &memory)
        try:
            if memory.len < LONG:
                wait(<void *>self.lock)
                self.consume(&memory, seed)
            else:
                self.lock = self.lock or Lock()
                acquire(self.lock)
                with nogil:
                    self.consume(&memory, seed)
                release(self.lock)
        finally:
            PyBuffer_Release(&memory)
        return 0

    def reset(self):
        """reset($self)\n--\n\nDrops all data, and keeps the seed."""
        wait(<void *>self.lock)
        self.start(self.start_seed)

    @property
    def seed(self):
        """The seed."""
        wait(<void *>self.lock)
        return self.start_seed

    def __reduce__(self):
        wait(<void *>self.lock)
        return type(self), (), (self.start_seed, PyBytes_FromStringAndSize(<char *>&self.state, self.state_size()))

    def __setstate__(self, checkpoint):
        cdef uint64_t seed = word_of(checkpoint[0], "a seed")
        cdef bytes state = checkpoint[1]
        if <size_t>len(state) != self.state_size():
            raise ValueError(f"a checkpoint of {type(self).__name__} does not have {len(state)} bytes")
        wait(<void *>self.lock)
        memcpy(&self.state, PyBytes_AS_STRING(state), self.state_size())
        self.start_seed = seed

    def __repr__(self):
        return f"<sketch_hash.{type(self).__name__} with seed {self.seed}, now {self.hexdigest()}>"


@cython.final
@cython.no_gc
cdef class xxh64(_Hasher):
    """xxh64(data=b'', seed=0)\n--\n\nXXH64 of a stream that comes in pieces.

    Calls of several threads on one object take turns, so threads and signal handlers may share it.
    """

    name = "XXH64"
    digest_size = digestsize = 8
    block_size = 32

    def __cinit__(self):
        sketch_xxh64_reset(&self.state.xxh64, 0)

    cdef void start(self, uint64_t seed) noexcept nogil:
        self.start_seed = seed
        sketch_xxh64_reset(&self.state.xxh64, seed)

    cdef void feed(self, const void *data, size_t length) noexcept nogil:
        sketch_xxh64_update(&self.state.xxh64, data, length)

    cdef int answer(self, uint64_t *words) noexcept:
        wait(<void *>self.lock)
        words[0] = sketch_xxh64_digest(&self.state.xxh64)
        return 1

    def update(self, data):
        """update($self, data, /)\n--\n\nAppends data. Splitting the input into several calls gives the same hash."""
        self.append(data, NULL)

    def digest(self):
        """digest($self)\n--\n\nReturns the hash of all data so far as 8 bytes, the highest first."""
        cdef uint64_t words[2]
        return digest_of(words, self.answer(words))

    def hexdigest(self):
        """hexdigest($self)\n--\n\nReturns the digest in lower-case hexadecimal."""
        cdef uint64_t words[2]
        return hex_of(words, self.answer(words))

    def intdigest(self):
        """intdigest($self)\n--\n\nReturns the digest as a whole number."""
        cdef uint64_t words[2]
        return int_of(words, self.answer(words))

    def copy(self):
        """copy($self)\n--\n\nReturns an independent object with the same seed and data."""
        cdef xxh64 other = xxh64.__new__(xxh64)
        wait(<void *>self.lock)
        other.state.xxh64, other.start_seed = self.state.xxh64, self.start_seed
        return other


@cython.final
@cython.no_gc
cdef class murmur3_x64_128(_Hasher):
    """murmur3_x64_128(data=b'', seed=0)\n--\n\nMurmurHash3 x64 128 of a stream that comes in pieces.

    Its seed has 64 bits; one below 2**32 gives the hash of Austin Appleby's MurmurHash3_x64_128 with that seed. Calls
    of several threads on one object take turns, so threads and signal handlers may share it.
    """

    name = "MURMUR3_X64_128"
    digest_size = digestsize = 16
    block_size = 16

    def __cinit__(self):
        sketch_murmur3_x64_128_reset(&self.state.murmur, 0)

    cdef void start(self, uint64_t seed) noexcept nogil:
        self.start_seed = seed
        sketch_murmur3_x64_128_reset(&self.state.murmur, seed)

    cdef void feed(self, const void *data, size_t length) noexcept nogil:
        sketch_murmur3_x64_128_update(&self.state.murmur, data, length)

    cdef int answer(self, uint64_t *words) noexcept:
        wait(<void *>self.lock)
        sketch_murmur3_x64_128_digest(&self.state.murmur, words)
        return 2

    def update(self, data):
        """update($self, data, /)\n--\n\nAppends data. Splitting the input into several calls gives the same hash."""
        self.append(data, NULL)

    def digest(self):
        """digest($self)\n--\n\nReturns the hash of all data so far as 16 bytes, each word with the highest first."""
        cdef uint64_t words[2]
        return digest_of(words, self.answer(words))

    def hexdigest(self):
        """hexdigest($self)\n--\n\nReturns the digest in lower-case hexadecimal."""
        cdef uint64_t words[2]
        return hex_of(words, self.answer(words))

    def intdigest(self):
        """intdigest($self)\n--\n\nReturns the digest as a whole number: the first word is above the second."""
        cdef uint64_t words[2]
        return int_of(words, self.answer(words))

    def copy(self):
        """copy($self)\n--\n\nReturns an independent object with the same seed and data."""
        cdef murmur3_x64_128 other = murmur3_x64_128.__new__(murmur3_x64_128)
        wait(<void *>self.lock)
        other.state.murmur, other.start_seed = self.state.murmur, self.start_seed
        return other

    def digest_bytes(self):
        """digest_bytes($self)\n--\n\nReturns the 16 bytes that most tools print: each word with the lowest first."""
        cdef uint64_t words[2]
        self.answer(words)
        return lowest_first(words)


cdef object lowest_first(const uint64_t *hash):
    cdef unsigned char out[16]
    sketch_murmur3_x64_128_bytes(hash, out)
    return PyBytes_FromStringAndSize(<char *>out, 16)


cdef inline uint64_t xxh64_of(object data, object seed) except? -1:
    cdef View memory
    cdef uint64_t number = word_of(seed, "a seed")
    get_bytes(data, &memory)
    return xxh64_of_memory(&memory, number)


cdef inline int murmur_of(object data, object seed, uint64_t *hash) except -1:
    cdef View memory
    cdef uint64_t number = word_of(seed, "a seed")
    get_bytes(data, &memory)
    if memory.len < LONG:
        sketch_murmur3_x64_128(memory.buf, memory.len, number, hash)
    else:
        with nogil:
            sketch_murmur3_x64_128(memory.buf, memory.len, number, hash)
    PyBuffer_Release(&memory)
    return 0


def xxh64_intdigest(data, seed=0):
    """xxh64_intdigest(data, seed=0)\n--\n\nReturns XXH64 of data as a whole number."""
    return xxh64_of(data, seed)


def xxh64_digest(data, seed=0):
    """xxh64_digest(data, seed=0)\n--\n\nReturns XXH64 of data as 8 bytes, the highest first."""
    word = xxh64_of(data, seed)
    return digest_of(&word, 1)


def xxh64_hexdigest(data, seed=0):
    """xxh64_hexdigest(data, seed=0)\n--\n\nReturns XXH64 of data as 16 hexadecimal digits."""
    word = xxh64_of(data, seed)
    return hex_of(&word, 1)


def murmur3_x64_128_intdigest(data, seed=0):
    """murmur3_x64_128_intdigest(data, seed=0)\n--\n\nReturns the hash as a whole number: the first word is above the
    second."""
    cdef uint64_t hash[2]
    murmur_of(data, seed, hash)
    return int_of(hash, 2)


def murmur3_x64_128_digest(data, seed=0):
    """murmur3_x64_128_digest(data, seed=0)\n--\n\nReturns the hash as 16 bytes, each word with the highest first."""
    cdef uint64_t hash[2]
    murmur_of(data, seed, hash)
    return digest_of(hash, 2)


def murmur3_x64_128_hexdigest(data, seed=0):
    """murmur3_x64_128_hexdigest(data, seed=0)\n--\n\nReturns the hash as 32 hexadecimal digits, first word first."""
    cdef uint64_t hash[2]
    murmur_of(data, seed, hash)
    return hex_of(hash, 2)


def murmur3_x64_128_bytes(data, seed=0):
    """murmur3_x64_128_bytes(data, seed=0)\n--\n\nReturns the 16 bytes of mmh3.hash_bytes: each word's lowest first."""
    cdef uint64_t hash[2]
    murmur_of(data, seed, hash)
    return lowest_first(hash)


def seed_hash(seed):
    """seed_hash(seed, /)\n--\n\nReturns the seed hash of a seed, by which sketches of Apache DataSketches tell whether they
    can be merged: the low 16 bits of the first word of Murmur, with seed 0, of the seed's eight bytes, the lowest first.
    Raises ValueError if it is 0, as of about one seed in 65,536. The seed that DataSketches has by default is 9001."""
    cdef uint16_t hash
    cdef uint64_t number = word_of(seed, "a seed")
    if sketch_seed_hash(number, &hash):
        raise ValueError(f"the hash of the seed {number} is 0, so sketches cannot use it: choose another seed")
    return hash
