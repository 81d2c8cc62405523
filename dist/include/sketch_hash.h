/* sketch_hash 3.2.0: XXH64, MurmurHash3_x64_128 and the Bloom filter of Apache Parquet, from
 * functions that are proved. Licence: Apache-2.0.
 *
 * Proved, of the source that sketch_hash.c is printed from: for every seed, a digest is the hash
 * of all bytes since the reset, however they were split into updates; a Bloom filter contains each
 * key that was inserted; no call reads or writes outside of what it is given, for any content of
 * it. The printing has no proof; what a compiler made of the text can be checked. Tests, and no
 * proof, show that the definitions are the published algorithms.
 *
 * The library calls memcpy, memmove and memset alone, so no call allocates.
 *
 * What a call returns:
 *   - An `int` is 0 if all is done, or a negative `enum sketch_status`. After an error, nothing
 *     that the call was given has changed, but for *wrong_offset.
 *   - sketch_bloom_contains and sketch_bloom_contains_hash return 1 or 0.
 *   - A count or a size is a `size_t`. It is 0 if there is none.
 *
 * What a caller must ensure, which no compiler checks:
 *   - A pointer with a length or a count points to that much memory, which is aligned for its type
 *     and may be NULL only if that is 0. So a length is below 2^63, a count below 2^60, and of
 *     pairs, as `out` of sketch_murmur3_x64_128_each32 has them, below 2^59; with sizes of 32 bits
 *     below 2^31, 2^28 and 2^27.
 *   - Any other pointer, wrong_offset too, is valid and not NULL.
 *   - What a call writes does not overlap anything else that it is given, and nobody else reads or
 *     writes it during the call. Nobody else writes what a call reads.
 *   - A state starts with its _INIT or its _reset.
 *
 * A state or a filter is plain data: copy it, save it, forget it. There is nothing to free. 2.x
 * and 3.x read each other's states, on processors of one byte order: the numbers of a state are the
 * machine's. A filter and its header are the same bytes everywhere. Threads may share what they
 * only read.
 */
#if defined SKETCH_HASH_INLINE && defined SKETCH_HASH_H && !defined SKETCH_HASH_IS_INLINE
#error "define SKETCH_HASH_INLINE before sketch_hash.h is included for the first time"
#endif
#ifndef SKETCH_HASH_H
#define SKETCH_HASH_H

#include <stddef.h>
#include <stdint.h>

#if !defined __cplusplus
#define SKETCH_HASH_U64(number) ((uint64_t)(number))
#elif __cplusplus < 201103L
#define SKETCH_HASH_U64(number) ::uint64_t(number)
#else
/* In a template no compiler warns of a cast that changes nothing. */
extern "C++" {
namespace sketch_hash {
template <typename Number> constexpr uint64_t u64(Number number) {
    return static_cast<uint64_t>(number);
}
} // namespace sketch_hash
}
#define SKETCH_HASH_U64(number) ::sketch_hash::u64(number)
#endif

/* What each call is declared with. SKETCH_HASH_INLINE makes it static, for a program that includes
 * sketch_hash.c, so that its compiler can inline calls. */
#ifdef SKETCH_HASH_INLINE
#define SKETCH_HASH_IS_INLINE
#endif
#ifndef SKETCH_HASH_API
#ifdef SKETCH_HASH_INLINE
#define SKETCH_HASH_API static inline
#else
#define SKETCH_HASH_API
#endif
#endif

/* Two copies of the library in one program are apart if each is compiled, and its header included,
 * with a SKETCH_HASH_NAMESPACE of its own, such as mine_: the calls are then mine_sketch_xxh64 and
 * so on, also where the program writes sketch_xxh64. */
#ifdef SKETCH_HASH_NAMESPACE
#define SKETCH_HASH_JOIN(prefix, name) prefix##name
#define SKETCH_HASH_JOINED(prefix, name) SKETCH_HASH_JOIN(prefix, name)
#define SKETCH_HASH_NAMED(name) SKETCH_HASH_JOINED(SKETCH_HASH_NAMESPACE, name)
#define sketch_hash_version SKETCH_HASH_NAMED(sketch_hash_version)
#define sketch_xxh64 SKETCH_HASH_NAMED(sketch_xxh64)
#define sketch_xxh64_u64 SKETCH_HASH_NAMED(sketch_xxh64_u64)
#define sketch_xxh64_reset SKETCH_HASH_NAMED(sketch_xxh64_reset)
#define sketch_xxh64_update SKETCH_HASH_NAMED(sketch_xxh64_update)
#define sketch_xxh64_digest SKETCH_HASH_NAMED(sketch_xxh64_digest)
#define sketch_murmur3_x64_128 SKETCH_HASH_NAMED(sketch_murmur3_x64_128)
#define sketch_murmur3_x64_128_reset SKETCH_HASH_NAMED(sketch_murmur3_x64_128_reset)
#define sketch_murmur3_x64_128_update SKETCH_HASH_NAMED(sketch_murmur3_x64_128_update)
#define sketch_murmur3_x64_128_digest SKETCH_HASH_NAMED(sketch_murmur3_x64_128_digest)
#define sketch_murmur3_x64_128_bytes SKETCH_HASH_NAMED(sketch_murmur3_x64_128_bytes)
#define sketch_seed_hash SKETCH_HASH_NAMED(sketch_seed_hash)
#define sketch_xxh64_each32 SKETCH_HASH_NAMED(sketch_xxh64_each32)
#define sketch_xxh64_each64 SKETCH_HASH_NAMED(sketch_xxh64_each64)
#define sketch_xxh64_each_u64 SKETCH_HASH_NAMED(sketch_xxh64_each_u64)
#define sketch_murmur3_x64_128_each32 SKETCH_HASH_NAMED(sketch_murmur3_x64_128_each32)
#define sketch_murmur3_x64_128_each64 SKETCH_HASH_NAMED(sketch_murmur3_x64_128_each64)
#define sketch_bloom_bytes_for SKETCH_HASH_NAMED(sketch_bloom_bytes_for)
#define sketch_bloom_check SKETCH_HASH_NAMED(sketch_bloom_check)
#define sketch_bloom_insert SKETCH_HASH_NAMED(sketch_bloom_insert)
#define sketch_bloom_contains SKETCH_HASH_NAMED(sketch_bloom_contains)
#define sketch_bloom_insert_hash SKETCH_HASH_NAMED(sketch_bloom_insert_hash)
#define sketch_bloom_contains_hash SKETCH_HASH_NAMED(sketch_bloom_contains_hash)
#define sketch_bloom_insert_each32 SKETCH_HASH_NAMED(sketch_bloom_insert_each32)
#define sketch_bloom_insert_each64 SKETCH_HASH_NAMED(sketch_bloom_insert_each64)
#define sketch_bloom_insert_each_u32 SKETCH_HASH_NAMED(sketch_bloom_insert_each_u32)
#define sketch_bloom_insert_each_u64 SKETCH_HASH_NAMED(sketch_bloom_insert_each_u64)
#define sketch_bloom_insert_each_hash SKETCH_HASH_NAMED(sketch_bloom_insert_each_hash)
#define sketch_bloom_contains_each32 SKETCH_HASH_NAMED(sketch_bloom_contains_each32)
#define sketch_bloom_contains_each64 SKETCH_HASH_NAMED(sketch_bloom_contains_each64)
#define sketch_bloom_contains_each_u32 SKETCH_HASH_NAMED(sketch_bloom_contains_each_u32)
#define sketch_bloom_contains_each_u64 SKETCH_HASH_NAMED(sketch_bloom_contains_each_u64)
#define sketch_bloom_contains_each_hash SKETCH_HASH_NAMED(sketch_bloom_contains_each_hash)
#define sketch_bloom_merge SKETCH_HASH_NAMED(sketch_bloom_merge)
#define sketch_bloom_fold SKETCH_HASH_NAMED(sketch_bloom_fold)
#define sketch_bloom_fold_to SKETCH_HASH_NAMED(sketch_bloom_fold_to)
#define sketch_bloom_block_offset SKETCH_HASH_NAMED(sketch_bloom_block_offset)
#define sketch_bloom_header_write SKETCH_HASH_NAMED(sketch_bloom_header_write)
#define sketch_bloom_header_read SKETCH_HASH_NAMED(sketch_bloom_header_read)
#endif

#ifdef __cplusplus
extern "C" {
#endif

/** The version of this header: major * 10000 + minor * 100 + patch. */
#define SKETCH_HASH_VERSION 30200

/** Returns the version of the library. */
SKETCH_HASH_API uint32_t sketch_hash_version(void);

/** What an `int` call returns. */
enum sketch_status {
    /** All is done. */
    SKETCH_OK = 0,
    /** No Bloom filter has this length, which must be a positive multiple of 32 below 2^37. Or two
     * filters to be merged have different lengths. Or a filter to be folded has an odd number of
     * blocks of 32 bytes. */
    SKETCH_ERROR_LENGTH = -1,
    /** An offset is missing, past the end, or below the one before it. */
    SKETCH_ERROR_OFFSET = -2,
    /** There are fewer values than places for results. */
    SKETCH_ERROR_COUNT = -3,
    /** The hash of the seed is 0, so no sketch may use the seed. */
    SKETCH_ERROR_SEED = -5
};

/* ---- XXH64, after Yann Collet's specification */

/** An XXH64 in progress. */
typedef struct sketch_xxh64_state {
    uint64_t seed, v1, v2, v3, v4;
    uint64_t total;            /* bytes since the reset, modulo 2^64 */
    unsigned char waiting[32]; /* the first total % 32 are bytes of the input */
} sketch_xxh64_state_t;

#define SKETCH_XXH64_PRIME1 ((SKETCH_HASH_U64(0x9E3779B1u) << 32) | SKETCH_HASH_U64(0x85EBCA87u))
#define SKETCH_XXH64_PRIME2 ((SKETCH_HASH_U64(0xC2B2AE3Du) << 32) | SKETCH_HASH_U64(0x27D4EB4Fu))

/* clang-format off */
/** Initializes a state, as sketch_xxh64_reset does. It evaluates `seed` five times. */
#define SKETCH_XXH64_INIT(seed)                                                                   \
    {                                                                                             \
        SKETCH_HASH_U64(seed), SKETCH_HASH_U64(seed) + SKETCH_XXH64_PRIME1 + SKETCH_XXH64_PRIME2, \
            SKETCH_HASH_U64(seed) + SKETCH_XXH64_PRIME2, SKETCH_HASH_U64(seed),                   \
            SKETCH_HASH_U64(seed) - SKETCH_XXH64_PRIME1, 0, { 0 }                                 \
    }
/* clang-format on */

/** Returns XXH64 of `length` bytes. It prints as "%016" PRIx64. */
SKETCH_HASH_API uint64_t sketch_xxh64(const void *input, size_t length, uint64_t seed);

/** Returns XXH64 of the eight bytes of a number, the lowest first. */
SKETCH_HASH_API uint64_t sketch_xxh64_u64(uint64_t value, uint64_t seed);

/** Starts a state with a seed, and no bytes. */
SKETCH_HASH_API void sketch_xxh64_reset(sketch_xxh64_state_t *state, uint64_t seed);

/** Appends bytes to the input. Splitting it into several calls gives the same hash. */
SKETCH_HASH_API void sketch_xxh64_update(sketch_xxh64_state_t *state, const void *input,
                                         size_t length);

/** Returns XXH64 of all bytes since the reset. The state is unchanged, so more may follow. */
SKETCH_HASH_API uint64_t sketch_xxh64_digest(const sketch_xxh64_state_t *state);

/* ---- MurmurHash3_x64_128, after Austin Appleby, with a seed of 64 bits */

/** A MurmurHash3_x64_128 in progress. */
typedef struct sketch_murmur3_x64_128_state {
    uint64_t h1, h2;
    uint64_t total;            /* bytes since the reset, modulo 2^64 */
    unsigned char waiting[16]; /* the first total % 16 are bytes of the input */
} sketch_murmur3_x64_128_state_t;

/* clang-format off */
/** Initializes a state, as sketch_murmur3_x64_128_reset does. It evaluates `seed` twice. */
#define SKETCH_MURMUR3_X64_128_INIT(seed) { SKETCH_HASH_U64(seed), SKETCH_HASH_U64(seed), 0, { 0 } }
/* clang-format on */

/** Writes the two words of MurmurHash3_x64_128 of `length` bytes, as the original's `out`. A seed
 * below 2^32 gives the original's hash. hash[0] and then hash[1], each as "%016" PRIx64, are the 32
 * digits that sketchsum prints; for those of most other tools see sketch_murmur3_x64_128_bytes. */
SKETCH_HASH_API void sketch_murmur3_x64_128(const void *input, size_t length, uint64_t seed,
                                            uint64_t hash[2]);

/** Starts a state with a seed, and no bytes. */
SKETCH_HASH_API void sketch_murmur3_x64_128_reset(sketch_murmur3_x64_128_state_t *state,
                                                  uint64_t seed);

/** Appends bytes to the input. Splitting it into several calls gives the same hash. */
SKETCH_HASH_API void sketch_murmur3_x64_128_update(sketch_murmur3_x64_128_state_t *state,
                                                   const void *input, size_t length);

/** Writes the two words of the hash of all bytes since the reset. The state is unchanged, so more
 * may follow. */
SKETCH_HASH_API void sketch_murmur3_x64_128_digest(const sketch_murmur3_x64_128_state_t *state,
                                                   uint64_t hash[2]);

/** Writes a hash in the byte order that most tools print: the lowest byte of each word first. */
SKETCH_HASH_API void sketch_murmur3_x64_128_bytes(const uint64_t hash[2], unsigned char out[16]);

/** Writes the seed hash of a seed, by which sketches of Apache DataSketches tell whether they can be
 * merged: the low 16 bits of hash[0] of sketch_murmur3_x64_128 with seed 0 of the seed's eight
 * bytes, the lowest first. Returns 0 or SKETCH_ERROR_SEED. */
SKETCH_HASH_API int sketch_seed_hash(uint64_t seed, uint16_t *hash);

/* ---- Columns of keys, as Apache Arrow lays out strings
 *
 * Key i is the bytes input[offsets[i]] up to, and without, input[offsets[i + 1]]. So `count` keys
 * have count + 1 offsets, and no keys one or none. `offset_count` says how many may be read;
 * further ones are not. Arrow's offsets are signed: cast the pointer. With offsets of 32 bits pass
 * at most 2^31 - 1 bytes: then a negative offset is an error.
 *
 * If an offset is missing, above `length`, or below the one before it, a call returns
 * SKETCH_ERROR_OFFSET and writes its index to *wrong_offset, which is otherwise unchanged. */

/** Writes XXH64 of key i to out[i], for each i below `count`. The offsets have 32 bits.
 * Returns 0 or SKETCH_ERROR_OFFSET. */
SKETCH_HASH_API int sketch_xxh64_each32(const void *input, size_t length, const uint32_t *offsets,
                                        size_t offset_count, uint64_t seed, uint64_t *out,
                                        size_t count, size_t *wrong_offset);

/** Writes XXH64 of key i to out[i], for each i below `count`. The offsets have 64 bits.
 * Returns 0 or SKETCH_ERROR_OFFSET. */
SKETCH_HASH_API int sketch_xxh64_each64(const void *input, size_t length, const uint64_t *offsets,
                                        size_t offset_count, uint64_t seed, uint64_t *out,
                                        size_t count, size_t *wrong_offset);

/** Writes sketch_xxh64_u64 of values[i] to out[i], for each i below `count`.
 * Returns 0, or SKETCH_ERROR_COUNT if `value_count` is below `count`. */
SKETCH_HASH_API int sketch_xxh64_each_u64(const uint64_t *values, size_t value_count, uint64_t seed,
                                          uint64_t *out, size_t count);

/** Writes MurmurHash3_x64_128 of key i to out[i], for each i below `count`. The offsets have 32
 * bits. Returns 0 or SKETCH_ERROR_OFFSET. */
SKETCH_HASH_API int sketch_murmur3_x64_128_each32(const void *input, size_t length,
                                                  const uint32_t *offsets, size_t offset_count,
                                                  uint64_t seed, uint64_t (*out)[2], size_t count,
                                                  size_t *wrong_offset);

/** Writes MurmurHash3_x64_128 of key i to out[i], for each i below `count`. The offsets have 64
 * bits. Returns 0 or SKETCH_ERROR_OFFSET. */
SKETCH_HASH_API int sketch_murmur3_x64_128_each64(const void *input, size_t length,
                                                  const uint64_t *offsets, size_t offset_count,
                                                  uint64_t seed, uint64_t (*out)[2], size_t count,
                                                  size_t *wrong_offset);

/* ---- The split block Bloom filter of Apache Parquet, which Arrow and DuckDB read
 *
 * A filter is `length` bytes at `bits`, the same on every machine, of any alignment. Bytes of 0 are
 * the filter without keys. The length is a positive multiple of 32 below 2^37, else a call returns
 * SKETCH_ERROR_LENGTH; Arrow reads only powers of two up to 128 MiB. Any bytes of such a length are
 * a filter.
 *
 * A key is the value's plain bytes in Parquet: those of a text without a length, those of a number
 * with the lowest first. */

/** Returns how many bytes the smallest filter has whose false positive rate is at most one in
 * `one_in`, within 2^-22 and by a Poisson model of its blocks, once it has `keys` keys: a power of
 * two, 32 bytes to 128 MiB. 0 if there is none. */
SKETCH_HASH_API size_t sketch_bloom_bytes_for(uint64_t keys, uint64_t one_in);

/** Returns 0 if a filter may have this length, or SKETCH_ERROR_LENGTH. */
SKETCH_HASH_API int sketch_bloom_check(size_t length);

/** Inserts a key. Returns 0 or SKETCH_ERROR_LENGTH. */
SKETCH_HASH_API int sketch_bloom_insert(void *bits, size_t length, const void *key,
                                        size_t key_length);

/** Returns 1 if the filter may contain the key, and 0 if it was certainly not inserted. Returns 1
 * too if no filter has this length: such bytes rule nothing out. */
SKETCH_HASH_API int sketch_bloom_contains(const void *bits, size_t length, const void *key,
                                          size_t key_length);

/** Inserts the key with this XXH64 of the seed 0. Returns 0 or SKETCH_ERROR_LENGTH. */
SKETCH_HASH_API int sketch_bloom_insert_hash(void *bits, size_t length, uint64_t hash);

/** Returns what sketch_bloom_contains does for the key with this XXH64 of the seed 0. */
SKETCH_HASH_API int sketch_bloom_contains_hash(const void *bits, size_t length, uint64_t hash);

/** Inserts the offset_count - 1 keys of a column with offsets of 32 bits.
 * Returns 0, SKETCH_ERROR_LENGTH or SKETCH_ERROR_OFFSET. */
SKETCH_HASH_API int sketch_bloom_insert_each32(void *bits, size_t length, const void *keys,
                                               size_t keys_length, const uint32_t *offsets,
                                               size_t offset_count, size_t *wrong_offset);

/** Inserts the offset_count - 1 keys of a column with offsets of 64 bits.
 * Returns 0, SKETCH_ERROR_LENGTH or SKETCH_ERROR_OFFSET. */
SKETCH_HASH_API int sketch_bloom_insert_each64(void *bits, size_t length, const void *keys,
                                               size_t keys_length, const uint64_t *offsets,
                                               size_t offset_count, size_t *wrong_offset);

/** Inserts the four bytes of each value: Parquet's INT32 and FLOAT.
 * Returns 0 or SKETCH_ERROR_LENGTH. */
SKETCH_HASH_API int sketch_bloom_insert_each_u32(void *bits, size_t length, const uint32_t *values,
                                                 size_t count);

/** Inserts the eight bytes of each value: Parquet's INT64 and DOUBLE.
 * Returns 0 or SKETCH_ERROR_LENGTH. */
SKETCH_HASH_API int sketch_bloom_insert_each_u64(void *bits, size_t length, const uint64_t *values,
                                                 size_t count);

/** Inserts the keys with these XXH64 of the seed 0. Returns 0 or SKETCH_ERROR_LENGTH. */
SKETCH_HASH_API int sketch_bloom_insert_each_hash(void *bits, size_t length, const uint64_t *hashes,
                                                  size_t count);

/** Writes 1 or 0 to found[i], as sketch_bloom_contains returns it for key i of a column with
 * offsets of 32 bits, for each i below `count`. Returns 0, SKETCH_ERROR_LENGTH or
 * SKETCH_ERROR_OFFSET. */
SKETCH_HASH_API int sketch_bloom_contains_each32(const void *bits, size_t length, const void *keys,
                                                 size_t keys_length, const uint32_t *offsets,
                                                 size_t offset_count, unsigned char *found,
                                                 size_t count, size_t *wrong_offset);

/** Writes 1 or 0 to found[i], as sketch_bloom_contains returns it for key i of a column with
 * offsets of 64 bits, for each i below `count`. Returns 0, SKETCH_ERROR_LENGTH or
 * SKETCH_ERROR_OFFSET. */
SKETCH_HASH_API int sketch_bloom_contains_each64(const void *bits, size_t length, const void *keys,
                                                 size_t keys_length, const uint64_t *offsets,
                                                 size_t offset_count, unsigned char *found,
                                                 size_t count, size_t *wrong_offset);

/** Writes 1 or 0 to found[i] for the four bytes of values[i], for each i below `count`. Returns 0,
 * SKETCH_ERROR_LENGTH, or SKETCH_ERROR_COUNT if `value_count` is below `count`. */
SKETCH_HASH_API int sketch_bloom_contains_each_u32(const void *bits, size_t length,
                                                   const uint32_t *values, size_t value_count,
                                                   unsigned char *found, size_t count);

/** Writes 1 or 0 to found[i] for the eight bytes of values[i], for each i below `count`. Returns 0,
 * SKETCH_ERROR_LENGTH, or SKETCH_ERROR_COUNT if `value_count` is below `count`. */
SKETCH_HASH_API int sketch_bloom_contains_each_u64(const void *bits, size_t length,
                                                   const uint64_t *values, size_t value_count,
                                                   unsigned char *found, size_t count);

/** Writes 1 or 0 to found[i] for the key with the XXH64 hashes[i], for each i below `count`.
 * Returns 0, SKETCH_ERROR_LENGTH, or SKETCH_ERROR_COUNT if `hash_count` is below `count`. */
SKETCH_HASH_API int sketch_bloom_contains_each_hash(const void *bits, size_t length,
                                                    const uint64_t *hashes, size_t hash_count,
                                                    unsigned char *found, size_t count);

/** Merges the filter at `from` into the one at `into`, which then contains the keys of both.
 * Returns 0, or SKETCH_ERROR_LENGTH, also if the lengths are different. */
SKETCH_HASH_API int sketch_bloom_merge(void *into, size_t length, const void *from,
                                       size_t from_length);

/** Folds a filter into its first half, which is then the filter of `length` / 2 bytes of the same
 * keys. So a filter can be created for all keys, and made smaller once it is known how many are
 * different. The second half is unchanged. Returns 0, or SKETCH_ERROR_LENGTH, also if `length` is
 * not a multiple of 64. */
SKETCH_HASH_API int sketch_bloom_fold(void *bits, size_t length);

/** Folds a filter as often as its false positive rate, by the bits that are set, stays at most one in
 * `one_in`. Returns the length of the folded filter, which is at `bits`. The bytes after it, up to
 * `length`, have no meaning: from then on a call with the old length misses keys. Returns `length` if
 * it folds nothing, as with a `one_in` of 0, and 0 if no filter has `length` bytes.
 *
 * The rate is the mean, over the blocks, of the product of the shares of set bits in the eight
 * words. So it is the probability that a key is found that was not inserted, if the eight bits of a
 * hash were independent. They come from 32 bits of it: below about one in 10^7 that is not so. */
SKETCH_HASH_API size_t sketch_bloom_fold_to(void *bits, size_t length, uint64_t one_in);

/** Returns the offset of the block of an XXH64 `hash` in a filter of `length` bytes, or SIZE_MAX if
 * no filter has that length. The 32 bytes of the block are a filter that contains the hash exactly
 * if the filter does. So a look-up in a file reads 32 bytes of a filter. */
SKETCH_HASH_API size_t sketch_bloom_block_offset(size_t length, uint64_t hash);

/** How many bytes sketch_bloom_header_write writes at most. */
#define SKETCH_BLOOM_HEADER_MAX 19

/** Writes to `header`, which has `room` bytes, the header that is before a filter of `bytes` bytes
 * in a Parquet file, and returns its length: 15 to 19. Returns 0, and writes nothing, if `room` is
 * too small, or `bytes` is 2^31 or more or no filter's length. The file's bloom_filter_length is
 * that of the header and the filter. */
SKETCH_HASH_API size_t sketch_bloom_header_write(uint64_t bytes, unsigned char *header,
                                                 size_t room);

/** Reads the header of a split block filter with XXH64, uncompressed. Returns its length, or 0, and
 * writes nothing, if `input` does not begin with one. Writes the length of the filter after it to
 * *bytes. If that is more than is left of `input`, the file is truncated: do not use the filter. */
SKETCH_HASH_API size_t sketch_bloom_header_read(const void *input, size_t length, uint64_t *bytes);

/* ---- The layouts that the library was built for. With another one an array below has the size -1,
 * and does not compile. */

typedef char sketch_hash_xxh64_state_has_no_padding
    [sizeof(sketch_xxh64_state_t) == 80 && offsetof(sketch_xxh64_state_t, waiting) == 48 ? 1 : -1];
typedef char sketch_hash_murmur3_x64_128_state_has_no_padding
    [sizeof(sketch_murmur3_x64_128_state_t) == 40 &&
             offsetof(sketch_murmur3_x64_128_state_t, waiting) == 24
         ? 1
         : -1];

#ifdef __cplusplus
}
#endif

#endif
