"""Keys of one kind in memory, and the library's call for each kind."""
from libc.stdint cimport uint32_t, uint64_t

from ._library cimport *

cdef enum Content:
    OFFSETS32, OFFSETS64, NUMBERS32, NUMBERS64, HASHES

cdef struct Keys:
    Content content
    const void *text  # the bytes of texts
    size_t reach  # how many of them an offset can reach
    const void *numbers  # offsets, numbers or hashes
    size_t items, count  # how many numbers there are, and how many keys


cdef inline int hash_keys(const Keys *keys, int words, uint64_t seed, void *out, size_t *wrong) noexcept nogil:
    """Writes a word of XXH64 or two of Murmur for each text, or a word of XXH64 for each number of 64 bits."""
    cdef const void *text = keys.text, *numbers = keys.numbers
    cdef size_t reach = keys.reach, items = keys.items, count = keys.count
    if keys.content == NUMBERS64:
        return sketch_xxh64_each_u64(<uint64_t *>numbers, items, seed, out, count)
    if keys.content == OFFSETS32:
        if words == 1:
            return sketch_xxh64_each32(text, reach, <uint32_t *>numbers, items, seed, out, count, wrong)
        return sketch_murmur3_x64_128_each32(text, reach, <uint32_t *>numbers, items, seed, out, count, wrong)
    if words == 1:
        return sketch_xxh64_each64(text, reach, <uint64_t *>numbers, items, seed, out, count, wrong)
    return sketch_murmur3_x64_128_each64(text, reach, <uint64_t *>numbers, items, seed, out, count, wrong)


cdef inline int insert_keys(void *bits, size_t length, const Keys *keys, size_t *wrong) noexcept nogil:
    cdef const void *text = keys.text, *numbers = keys.numbers
    cdef size_t reach = keys.reach, items = keys.items
    if keys.content == OFFSETS32:
        return sketch_bloom_insert_each32(bits, length, text, reach, <uint32_t *>numbers, items, wrong)
    if keys.content == OFFSETS64:
        return sketch_bloom_insert_each64(bits, length, text, reach, <uint64_t *>numbers, items, wrong)
    if keys.content == NUMBERS32:
        return sketch_bloom_insert_each_u32(bits, length, <uint32_t *>numbers, items)
    if keys.content == NUMBERS64:
        return sketch_bloom_insert_each_u64(bits, length, <uint64_t *>numbers, items)
    return sketch_bloom_insert_each_hash(bits, length, <uint64_t *>numbers, items)


cdef inline int contains_keys(
    const void *bits, size_t length, const Keys *keys, unsigned char *found, size_t *wrong
) noexcept nogil:
    cdef const void *text = keys.text, *numbers = keys.numbers
    cdef size_t reach = keys.reach, items = keys.items, count = keys.count
    if keys.content == OFFSETS32:
        return sketch_bloom_contains_each32(bits, length, text, reach, <uint32_t *>numbers, items, found, count, wrong)
    if keys.content == OFFSETS64:
        return sketch_bloom_contains_each64(bits, length, text, reach, <uint64_t *>numbers, items, found, count, wrong)
    if keys.content == NUMBERS32:
        return sketch_bloom_contains_each_u32(bits, length, <uint32_t *>numbers, items, found, count)
    if keys.content == NUMBERS64:
        return sketch_bloom_contains_each_u64(bits, length, <uint64_t *>numbers, items, found, count)
    return sketch_bloom_contains_each_hash(bits, length, <uint64_t *>numbers, items, found, count)
