"""The library for C, as sketch_hash.h declares it."""
from libc.stdint cimport uint16_t, uint32_t, uint64_t

cdef extern from "c/sketch_hash.h" nogil:
    enum:
        SKETCH_ERROR_OFFSET
        SKETCH_BLOOM_HEADER_MAX
    ctypedef struct sketch_xxh64_state_t:
        uint64_t seed
    ctypedef struct sketch_murmur3_x64_128_state_t:
        uint64_t total

    uint64_t sketch_xxh64(const void *, size_t, uint64_t)
    void sketch_xxh64_reset(sketch_xxh64_state_t *, uint64_t)
    void sketch_xxh64_update(sketch_xxh64_state_t *, const void *, size_t)
    uint64_t sketch_xxh64_digest(const sketch_xxh64_state_t *)

    void sketch_murmur3_x64_128(const void *, size_t, uint64_t, uint64_t *)
    void sketch_murmur3_x64_128_reset(sketch_murmur3_x64_128_state_t *, uint64_t)
    void sketch_murmur3_x64_128_update(sketch_murmur3_x64_128_state_t *, const void *, size_t)
    void sketch_murmur3_x64_128_digest(const sketch_murmur3_x64_128_state_t *, uint64_t *)
    void sketch_murmur3_x64_128_bytes(const uint64_t *, unsigned char *)

    int sketch_seed_hash(uint64_t, uint16_t *)

    int sketch_xxh64_each32(const void *, size_t, const uint32_t *, size_t, uint64_t, void *, size_t, size_t *)
    int sketch_xxh64_each64(const void *, size_t, const uint64_t *, size_t, uint64_t, void *, size_t, size_t *)
    int sketch_xxh64_each_u64(const uint64_t *, size_t, uint64_t, void *, size_t)
    int sketch_murmur3_x64_128_each32(
        const void *, size_t, const uint32_t *, size_t, uint64_t, void *, size_t, size_t *)
    int sketch_murmur3_x64_128_each64(
        const void *, size_t, const uint64_t *, size_t, uint64_t, void *, size_t, size_t *)

    size_t sketch_bloom_bytes_for(uint64_t, uint64_t)
    int sketch_bloom_check(size_t)
    int sketch_bloom_insert_hash(void *, size_t, uint64_t)
    int sketch_bloom_contains_hash(const void *, size_t, uint64_t)
    int sketch_bloom_insert_each32(void *, size_t, const void *, size_t, const uint32_t *, size_t, size_t *)
    int sketch_bloom_insert_each64(void *, size_t, const void *, size_t, const uint64_t *, size_t, size_t *)
    int sketch_bloom_insert_each_u32(void *, size_t, const uint32_t *, size_t)
    int sketch_bloom_insert_each_u64(void *, size_t, const uint64_t *, size_t)
    int sketch_bloom_insert_each_hash(void *, size_t, const uint64_t *, size_t)
    int sketch_bloom_contains_each32(
        const void *, size_t, const void *, size_t, const uint32_t *, size_t, unsigned char *, size_t, size_t *)
    int sketch_bloom_contains_each64(
        const void *, size_t, const void *, size_t, const uint64_t *, size_t, unsigned char *, size_t, size_t *)
    int sketch_bloom_contains_each_u32(const void *, size_t, const uint32_t *, size_t, unsigned char *, size_t)
    int sketch_bloom_contains_each_u64(const void *, size_t, const uint64_t *, size_t, unsigned char *, size_t)
    int sketch_bloom_contains_each_hash(const void *, size_t, const uint64_t *, size_t, unsigned char *, size_t)
    int sketch_bloom_merge(void *, size_t, const void *, size_t)
    int sketch_bloom_fold(void *, size_t)
    size_t sketch_bloom_fold_to(void *, size_t, uint64_t)
    size_t sketch_bloom_block_offset(size_t, uint64_t)
    size_t sketch_bloom_header_write(uint64_t, unsigned char *, size_t)
    size_t sketch_bloom_header_read(const void *, size_t, uint64_t *)
