/* sketch_hash.c 3.2.0: printed from proved text. Do not edit it: tools/print_c prints it.
 *
 * crate     sketch_c, and those that it depends on, of which PROVED says more
 * text      548237314c73f283e9f0a74f2554f273094f5462348a8e4a105319e0c74be7f1
 * prover    rattle-kit-13f logic dac8208d650f15bf
 * licence   Apache-2.0
 */
/* Whether the compiler has the attributes of GNU C: gcc from version 5 on and clang tell. Others,
 * of which some only say that they are GNU C, get the plain way. */
#ifdef __has_attribute
#if __has_attribute(always_inline) && __has_attribute(noinline)
#define SKH_IS_GNU
#endif
#if defined __GNUC__ && defined __x86_64__ && !defined __AVX2__ && __has_attribute(target)
#define SKH_FINDS_AVX2
#include <cpuid.h> /* before all others: a macro of dietlibc's is a name in it */
#endif
#endif

#include "sketch_hash.h"
#include <limits.h>
#include <stdbool.h>
#ifdef __wasm__ /* where each of these is an instruction, and no C library is needed */
#define memcpy __builtin_memcpy
#define memmove __builtin_memmove
#define memset __builtin_memset
#else
#include <string.h>
#endif

#if CHAR_BIT != 8
#error "sketch_hash needs bytes of 8 bits"
#endif

/* SKH_REQUIRES says what all callers ensure: without it keys of 32 to 63 bytes take 1.1 to 1.2
 * times as long with gcc. SKH_LIKELY and SKH_UNLIKELY say what mostly holds: without them columns
 * of short keys take 1.1 to 1.4 times as long, and Murmur's updates by 1 to 3 bytes 1.1 to 1.3. */
#ifdef SKH_IS_GNU
#define SKH_NOINLINE __attribute__((noinline))
#define SKH_INLINE static inline __attribute__((always_inline))
#define SKH_REQUIRES(condition) ((condition) ? (void)0 : __builtin_unreachable())
#define SKH_LIKELY(condition) (__builtin_expect(condition, 1))
#define SKH_UNLIKELY(condition) (__builtin_expect(condition, 0))
#else
#define SKH_NOINLINE
#define SKH_INLINE static inline
#define SKH_REQUIRES(condition) ((void)0)
#define SKH_LIKELY(condition) (condition)
#define SKH_UNLIKELY(condition) (condition)
#endif

/* A function of which there is a second one for processors with AVX2, where the compiler can make
 * it and the program was not compiled for these processors alone. Before the constructor has run,
 * the first one is called. */
#ifdef SKH_FINDS_AVX2
static bool skh_has_avx2;
__attribute__((constructor)) static void skh_find_avx2(void) {
    unsigned a, b, c, d;
    if (!__get_cpuid(1, &a, &b, &c, &d) || (c & bit_OSXSAVE) == 0) return;
    __asm__ volatile("xgetbv"
                     : "=a"(a), "=d"(d)
                     : "c"(0)); /* whether the system saves the registers */
    if ((a & 6) != 6 || !__get_cpuid_count(7, 0, &a, &b, &c, &d)) return;
    skh_has_avx2 = (b & bit_AVX2) != 0;
}
#define SKH_GIVEN(...) __VA_ARGS__
#define SKH_CHOOSE(STORAGE, TYPE, GIVE, NAME, PARAMETERS, ARGUMENTS)                               \
    __attribute__((target("avx2"))) static TYPE NAME##_avx2 PARAMETERS {                           \
        GIVE NAME##_any(true, SKH_GIVEN ARGUMENTS);                                                \
    }                                                                                              \
    STORAGE TYPE NAME PARAMETERS {                                                                 \
        if (skh_has_avx2)                                                                          \
            GIVE NAME##_avx2 ARGUMENTS;                                                            \
        else                                                                                       \
            GIVE NAME##_any(false, SKH_GIVEN ARGUMENTS);                                           \
    }
#else
#define SKH_GIVEN(...) __VA_ARGS__
#define SKH_CHOOSE(STORAGE, TYPE, GIVE, NAME, PARAMETERS, ARGUMENTS)                               \
    STORAGE TYPE NAME PARAMETERS { GIVE NAME##_any(true, SKH_GIVEN ARGUMENTS); }
#endif

/* A caller may give NULL for no bytes. C allows no offset from it, so where one is computed it is
 * replaced by the address of a byte, at which nothing is read. */
static const unsigned char skh_nothing = 0;
SKH_INLINE const unsigned char *skh_slice(const void *at) {
    return at == NULL ? &skh_nothing : (const unsigned char *)at;
}

/* A number of an array, in the machine's byte order. The array may have another type, such as
 * double, and need not be aligned. */
SKH_INLINE uint32_t skh_get32(const void *at) {
    uint32_t number;
    memcpy(&number, at, sizeof number);
    return number;
}
SKH_INLINE uint64_t skh_get64(const void *at) {
    uint64_t number;
    memcpy(&number, at, sizeof number);
    return number;
}
SKH_INLINE void skh_set64(void *at, uint64_t number) { memcpy(at, &number, sizeof number); }

/* A number of bytes, the lowest first on every processor. */
#if defined _WIN32 || defined __BYTE_ORDER__ && __BYTE_ORDER__ == __ORDER_LITTLE_ENDIAN__
SKH_INLINE uint16_t skh_load16(const unsigned char *at) {
    uint16_t number;
    memcpy(&number, at, sizeof number);
    return number;
}
SKH_INLINE uint32_t skh_load32(const unsigned char *at) { return skh_get32(at); }
SKH_INLINE uint64_t skh_load64(const unsigned char *at) { return skh_get64(at); }
SKH_INLINE void skh_store16(unsigned char *at, uint16_t number) {
    memcpy(at, &number, sizeof number);
}
SKH_INLINE void skh_store32(unsigned char *at, uint32_t number) {
    memcpy(at, &number, sizeof number);
}
SKH_INLINE void skh_store64(unsigned char *at, uint64_t number) { skh_set64(at, number); }
#else
SKH_INLINE uint16_t skh_load16(const unsigned char *at) { return (uint16_t)(at[0] | at[1] << 8); }
SKH_INLINE uint32_t skh_load32(const unsigned char *at) {
    return skh_load16(at) | (uint32_t)skh_load16(at + 2) << 16;
}
SKH_INLINE uint64_t skh_load64(const unsigned char *at) {
    return skh_load32(at) | (uint64_t)skh_load32(at + 4) << 32;
}
SKH_INLINE void skh_store16(unsigned char *at, uint16_t number) {
    at[0] = (unsigned char)number;
    at[1] = (unsigned char)(number >> 8);
}
SKH_INLINE void skh_store32(unsigned char *at, uint32_t number) {
    skh_store16(at, (uint16_t)number);
    skh_store16(at + 2, (uint16_t)(number >> 16));
}
SKH_INLINE void skh_store64(unsigned char *at, uint64_t number) {
    skh_store32(at, (uint32_t)number);
    skh_store32(at + 4, (uint32_t)(number >> 32));
}
#endif

/* By its builtin, since clang makes a second product of x * y << n if it sees the shift. */
#if defined __clang__
SKH_INLINE uint64_t skh_rotate64(uint64_t x, uint64_t n) { return __builtin_rotateleft64(x, n); }
#else
SKH_INLINE uint64_t skh_rotate64(uint64_t x, uint64_t n) { return x << n | x >> (64 - n); }
#endif
/* Bit n. Without AVX2 gcc makes no vector of shifts, and a look-up takes two thirds of the time of
 * a shift. */
SKH_INLINE uint32_t skh_bit(bool has_vectors, uint32_t n) {
#ifndef __clang__
    static const uint32_t bits[32] = {
        1u << 0,  1u << 1,  1u << 2,  1u << 3,  1u << 4,  1u << 5,  1u << 6,  1u << 7,
        1u << 8,  1u << 9,  1u << 10, 1u << 11, 1u << 12, 1u << 13, 1u << 14, 1u << 15,
        1u << 16, 1u << 17, 1u << 18, 1u << 19, 1u << 20, 1u << 21, 1u << 22, 1u << 23,
        1u << 24, 1u << 25, 1u << 26, 1u << 27, 1u << 28, 1u << 29, 1u << 30, 1u << 31};
    if (!has_vectors) return bits[n];
#endif
    (void)has_vectors;
    return (uint32_t)1 << n;
}

/* Whether any bit is set. gcc makes a vector only of the array, and clang only of the sum. */
SKH_INLINE bool skh_any(bool has_vectors, uint32_t a, uint32_t b, uint32_t c, uint32_t d,
                        uint32_t e, uint32_t f, uint32_t g, uint32_t h) {
#ifndef __clang__
    if (has_vectors) {
        const uint32_t words[8] = {a, b, c, d, e, f, g, h};
        uint64_t pairs[4];
        memcpy(pairs, words, sizeof pairs);
        return (pairs[0] | pairs[1] | pairs[2] | pairs[3]) != 0;
    }
#endif
    (void)has_vectors;
    return (a | b | c | d | e | f | g | h) != 0;
}

SKH_INLINE uint64_t skh_least64(uint64_t x, uint64_t y) { return x < y ? x : y; }
/* x - y, but not below 0. */
SKH_INLINE uint64_t skh_less64(uint64_t x, uint64_t y) { return x > y ? x - y : 0; }

/* How many bits are set. */
SKH_INLINE uint32_t skh_ones32(uint32_t x) {
    x -= x >> 1 & 0x55555555u;
    x = (x & 0x33333333u) + (x >> 2 & 0x33333333u);
    return ((x + (x >> 4)) & 0x0f0f0f0fu) * 0x01010101u >> 24;
}

/* Numbers of 128 bits. In WebAssembly the compiler's own need functions that a module lacks. */
#if defined __SIZEOF_INT128__ && !defined __wasm__
__extension__ typedef unsigned __int128 skh_uint128;
SKH_INLINE skh_uint128 skh_wide(uint64_t high, uint64_t low) {
    return (skh_uint128)high << 64 | low;
}
SKH_INLINE uint64_t skh_wide_low(skh_uint128 x) { return (uint64_t)x; }
SKH_INLINE uint64_t skh_wide_high(skh_uint128 x) { return (uint64_t)(x >> 64); }
SKH_INLINE skh_uint128 skh_wide_left(skh_uint128 x, uint64_t n) { return x << n; }
SKH_INLINE skh_uint128 skh_wide_right(skh_uint128 x, uint64_t n) { return x >> n; }
SKH_INLINE skh_uint128 skh_wide_low_bits(skh_uint128 x, uint64_t n) {
    return x & ~(~(skh_uint128)0 << n);
}
SKH_INLINE skh_uint128 skh_wide_add(skh_uint128 x, skh_uint128 y) { return x + y; }
SKH_INLINE skh_uint128 skh_wide_mul(skh_uint128 x, skh_uint128 y) { return x * y; }
SKH_INLINE bool skh_wide_above(skh_uint128 x, skh_uint128 y) { return x > y; }
#else
typedef struct {
    uint64_t high, low;
} skh_uint128;
SKH_INLINE skh_uint128 skh_wide(uint64_t high, uint64_t low) {
    skh_uint128 x = {high, low};
    return x;
}
SKH_INLINE uint64_t skh_wide_low(skh_uint128 x) { return x.low; }
SKH_INLINE uint64_t skh_wide_high(skh_uint128 x) { return x.high; }
SKH_INLINE skh_uint128 skh_wide_left(skh_uint128 x, uint64_t n) {
    if (n == 0) return x;
    return n < 64 ? skh_wide(x.high << n | x.low >> (64 - n), x.low << n)
                  : skh_wide(x.low << (n - 64), 0);
}
SKH_INLINE skh_uint128 skh_wide_right(skh_uint128 x, uint64_t n) {
    if (n == 0) return x;
    return n < 64 ? skh_wide(x.high >> n, x.low >> n | x.high << (64 - n))
                  : skh_wide(0, x.high >> (n - 64));
}
SKH_INLINE skh_uint128 skh_wide_low_bits(skh_uint128 x, uint64_t n) {
    const skh_uint128 above = skh_wide_left(skh_wide(UINT64_MAX, UINT64_MAX), n);
    return skh_wide(x.high & ~above.high, x.low & ~above.low);
}
SKH_INLINE skh_uint128 skh_wide_add(skh_uint128 x, skh_uint128 y) {
    uint64_t low = x.low + y.low;
    return skh_wide(x.high + y.high + (low < x.low), low);
}
SKH_INLINE skh_uint128 skh_wide_mul(skh_uint128 x, skh_uint128 y) {
    uint64_t a = x.low >> 32, b = x.low & 0xffffffffu, c = y.low >> 32, d = y.low & 0xffffffffu;
    uint64_t middle = (b * d >> 32) + (a * d & 0xffffffffu) + b * c;
    return skh_wide(x.high * y.low + x.low * y.high + a * c + (a * d >> 32) + (middle >> 32),
                    x.low * y.low);
}
SKH_INLINE bool skh_wide_above(skh_uint128 x, skh_uint128 y) {
    return x.high != y.high ? x.high > y.high : x.low > y.low;
}
#endif

/* What a function returns that gives two numbers, a number or none, and a number or an error. */
struct skh_pair {
    uint64_t first, second;
};
struct skh_option {
    bool is_some;
    uint64_t value;
};
struct skh_result {
    bool is_error;
    uint64_t value;
};
SKH_INLINE struct skh_pair skh_pair_of(uint64_t first, uint64_t second) {
    const struct skh_pair pair = {first, second};
    return pair;
}
SKH_INLINE struct skh_option skh_some(uint64_t value) {
    const struct skh_option option = {true, value};
    return option;
}
SKH_INLINE struct skh_option skh_none(void) {
    const struct skh_option option = {false, 0};
    return option;
}
SKH_INLINE struct skh_result skh_result_of(bool is_error, uint64_t value) {
    const struct skh_result result = {is_error, value};
    return result;
}
SKH_INLINE struct skh_result skh_ok(uint64_t value) { return skh_result_of(false, value); }
SKH_INLINE struct skh_result skh_error(uint64_t value) { return skh_result_of(true, value); }

struct skh_xxh64_lanes {
    uint64_t v1, v2, v3, v4;
};

struct skh_murmur3_hasher {
    uint64_t h1, h2, total, low, high, count;
};

/* ---- Words */

/* A word xor the same word shifted to the right by `places`. */
SKH_INLINE uint64_t skh_xor_shift(uint64_t word, uint32_t places) {
    return word ^ (word >> places);
}

/* ---- Copies of a few bytes */

/* Copies 2 to 4 bytes to `buffer[at..]`: first the first 2 bytes, then the last 2. */
SKH_INLINE void skh_copy_overlapping_2(unsigned char *buffer, uint64_t at,
                                       const unsigned char *bytes, uint64_t bytes_length) {
    skh_store16(buffer + at, skh_load16(bytes));
    skh_store16(buffer + at + bytes_length - 2, skh_load16(bytes + bytes_length - 2));
}

/* Copies 4 to 8 bytes to `buffer[at..]`: first the first 4 bytes, then the last 4. */
SKH_INLINE void skh_copy_overlapping_4(unsigned char *buffer, uint64_t at,
                                       const unsigned char *bytes, uint64_t bytes_length) {
    skh_store32(buffer + at, skh_load32(bytes));
    skh_store32(buffer + at + bytes_length - 4, skh_load32(bytes + bytes_length - 4));
}

/* Copies one to seven bytes to `buffer[at..]`. */
SKH_INLINE void skh_copy_tiny(unsigned char *buffer, uint64_t at, const unsigned char *bytes,
                              uint64_t bytes_length) {
    if (bytes_length < 2) {
        buffer[at] = bytes[0];
    } else if (bytes_length < 4) {
        skh_copy_overlapping_2(buffer, at, bytes, bytes_length);
    } else {
        skh_copy_overlapping_4(buffer, at, bytes, bytes_length);
    }
}

/* Copies 8 to 16 bytes to `buffer[at..]`: first the first 8 bytes, then the last 8. */
SKH_INLINE void skh_copy_overlapping_8(unsigned char *buffer, uint64_t at,
                                       const unsigned char *bytes, uint64_t bytes_length) {
    skh_store64(buffer + at, skh_load64(bytes));
    skh_store64(buffer + at + bytes_length - 8, skh_load64(bytes + bytes_length - 8));
}

/* Copies 16 to 32 bytes to `buffer[at..]`: first the first 16 bytes, then the last 16. */
SKH_INLINE void skh_copy_overlapping_16(unsigned char *buffer, uint64_t at,
                                        const unsigned char *bytes, uint64_t bytes_length) {
    memmove(buffer + at, bytes, 16);
    memmove(buffer + at + bytes_length - 16, bytes + bytes_length - 16, 16);
}

/* Copies at most 32 bytes to `buffer[at..]`. A copy of unknown length is a call of `memcpy`,
 * which makes XXH64's writes of 1 to 100 bytes 17 to 33 % slower. */
SKH_INLINE void skh_copy_small(unsigned char *buffer, uint64_t at, const unsigned char *bytes,
                               uint64_t bytes_length) {
    if (bytes_length != 0) {
        if (bytes_length < 8) {
            skh_copy_tiny(buffer, at, bytes, bytes_length);
        } else if (bytes_length < 16) {
            skh_copy_overlapping_8(buffer, at, bytes, bytes_length);
        } else {
            skh_copy_overlapping_16(buffer, at, bytes, bytes_length);
        }
    }
}

/* ---- Offsets of columns */

/* Whether all offsets are there, none is below the one before it, and the last one is within the
 * bytes. Then all are right. It takes half the time of a check of each against the length too. */
SKH_INLINE bool skh_all_bound32(uint64_t bytes_length, const uint32_t *offsets,
                                uint64_t offsets_count, uint64_t keys) {
    if (offsets_count <= keys || bytes_length < (uint64_t)skh_get32(offsets + keys)) return false;
    for (uint64_t i = 0; i < keys; i++) {
        if ((uint64_t)skh_get32(offsets + i + 1) < (uint64_t)skh_get32(offsets + i)) return false;
    }
    return true;
}

/* Checks the offset at index `i`, which must not be below the last one, and returns its place. */
SKH_INLINE struct skh_result skh_check_offset32(uint64_t bytes_length, const uint32_t *offsets,
                                                uint64_t offsets_count, uint64_t i, uint64_t last) {
    if (SKH_UNLIKELY(offsets_count <= i)) return skh_error(i);
    const uint64_t place = skh_get32(offsets + i);
    if (SKH_UNLIKELY(place < last || bytes_length < place)) return skh_error(i);
    return skh_ok(place);
}

/* Checks one offset after another. It is a call of its own, since it is rarely made. */
static SKH_NOINLINE struct skh_result skh_check_each_offset32(uint64_t bytes_length,
                                                              const uint32_t *offsets,
                                                              uint64_t offsets_count,
                                                              uint64_t keys) {
    uint64_t last = 0;
    for (uint64_t i = 0; i < keys; i++) {
        const struct skh_result result =
            skh_check_offset32(bytes_length, offsets, offsets_count, i, last);
        if (SKH_UNLIKELY(result.is_error)) return skh_error(result.value);
        last = result.value;
    }
    const struct skh_result result =
        skh_check_offset32(bytes_length, offsets, offsets_count, keys, last);
    if (SKH_UNLIKELY(result.is_error)) return skh_error(result.value);
    return skh_ok(0);
}

/* Checks the offsets of a column of this many keys, laid out as for `skh_xxh64_hash_each32`.
 *
 * `keys` may be any number, also UINT64_MAX: nothing is added to it. */
SKH_INLINE struct skh_result skh_check_offsets32(uint64_t bytes_length, const uint32_t *offsets,
                                                 uint64_t offsets_count, uint64_t keys) {
    if ((keys == 0 && offsets_count == 0) ||
        skh_all_bound32(bytes_length, offsets, offsets_count, keys))
        return skh_ok(0);
    return skh_check_each_offset32(bytes_length, offsets, offsets_count, keys);
}

/* `skh_all_bound32` for offsets of 64 bits. */
SKH_INLINE bool skh_all_bound64(uint64_t bytes_length, const uint64_t *offsets,
                                uint64_t offsets_count, uint64_t keys) {
    if (offsets_count <= keys || bytes_length < skh_get64(offsets + keys)) return false;
    for (uint64_t i = 0; i < keys; i++) {
        if (skh_get64(offsets + i + 1) < skh_get64(offsets + i)) return false;
    }
    return true;
}

/* `skh_check_offset32` for offsets of 64 bits. */
SKH_INLINE struct skh_result skh_check_offset64(uint64_t bytes_length, const uint64_t *offsets,
                                                uint64_t offsets_count, uint64_t i, uint64_t last) {
    if (SKH_UNLIKELY(offsets_count <= i)) return skh_error(i);
    const uint64_t place = skh_get64(offsets + i);
    if (SKH_UNLIKELY(place < last || bytes_length < place)) return skh_error(i);
    return skh_ok(place);
}

/* `skh_check_each_offset32` for offsets of 64 bits. */
static SKH_NOINLINE struct skh_result skh_check_each_offset64(uint64_t bytes_length,
                                                              const uint64_t *offsets,
                                                              uint64_t offsets_count,
                                                              uint64_t keys) {
    uint64_t last = 0;
    for (uint64_t i = 0; i < keys; i++) {
        const struct skh_result result =
            skh_check_offset64(bytes_length, offsets, offsets_count, i, last);
        if (SKH_UNLIKELY(result.is_error)) return skh_error(result.value);
        last = result.value;
    }
    const struct skh_result result =
        skh_check_offset64(bytes_length, offsets, offsets_count, keys, last);
    if (SKH_UNLIKELY(result.is_error)) return skh_error(result.value);
    return skh_ok(0);
}

/* `skh_check_offsets32` for offsets of 64 bits. */
SKH_INLINE struct skh_result skh_check_offsets64(uint64_t bytes_length, const uint64_t *offsets,
                                                 uint64_t offsets_count, uint64_t keys) {
    if ((keys == 0 && offsets_count == 0) ||
        skh_all_bound64(bytes_length, offsets, offsets_count, keys))
        return skh_ok(0);
    return skh_check_each_offset64(bytes_length, offsets, offsets_count, keys);
}

/* ---- XXH64 */

#define SKH_PRIME1 0x9e3779b185ebca87u
#define SKH_PRIME2 0xc2b2ae3d27d4eb4fu
#define SKH_PRIME3 0x165667b19e3779f9u
#define SKH_PRIME4 0x85ebca77c2b2ae63u
#define SKH_PRIME5 0x27d4eb2f165667c5u

/* The last mixing of the hash. */
SKH_INLINE uint64_t skh_xxh64_avalanche(uint64_t hash) {
    const uint64_t once = skh_xor_shift(hash, 33) * SKH_PRIME2;
    const uint64_t twice = skh_xor_shift(once, 29) * SKH_PRIME3;
    return skh_xor_shift(twice, 32);
}

/* A lane after an input word. */
SKH_INLINE uint64_t skh_xxh64_round(uint64_t lane, uint64_t word) {
    return skh_rotate64(lane + word * SKH_PRIME2, 31) * SKH_PRIME1;
}

/* The hash after a word of eight bytes of the tail. */
SKH_INLINE uint64_t skh_xxh64_eight_step(uint64_t hash, uint64_t word) {
    return skh_rotate64(hash ^ skh_xxh64_round(0, word), 27) * SKH_PRIME1 + SKH_PRIME4;
}

/* The hash after a byte of the tail. */
SKH_INLINE uint64_t skh_xxh64_byte_step(uint64_t hash, uint8_t byte) {
    return skh_rotate64(hash ^ ((uint64_t)byte * SKH_PRIME5), 11) * SKH_PRIME1;
}

/* The hash after fewer than four single bytes. A loop makes keys of 5 to 7 bytes 17 % slower. */
SKH_INLINE uint64_t skh_xxh64_fold_few(uint64_t hash, const unsigned char *bytes,
                                       uint64_t bytes_length) {
    if (bytes_length == 0) return hash;
    hash = skh_xxh64_byte_step(hash, bytes[0]);
    if (bytes_length == 1) return hash;
    hash = skh_xxh64_byte_step(hash, bytes[1]);
    if (bytes_length == 2) return hash;
    return skh_xxh64_byte_step(hash, bytes[2]);
}

/* The hash after a word of four bytes of the tail. */
SKH_INLINE uint64_t skh_xxh64_four_step(uint64_t hash, uint32_t word) {
    return skh_rotate64(hash ^ ((uint64_t)word * SKH_PRIME1), 23) * SKH_PRIME2 + SKH_PRIME3;
}

/* The hash after a tail of fewer than 8 bytes. */
SKH_INLINE uint64_t skh_xxh64_fold_below_8(uint64_t hash, const unsigned char *tail,
                                           uint64_t tail_length) {
    if (tail_length >= 4)
        return skh_xxh64_fold_few(skh_xxh64_four_step(hash, skh_load32(tail)), tail + 4,
                                  tail_length - 4);
    return skh_xxh64_fold_few(hash, tail, tail_length);
}

/* The hash after a tail of fewer than 16 bytes, without a loop. */
SKH_INLINE uint64_t skh_xxh64_fold_below_16(uint64_t hash, const unsigned char *tail,
                                            uint64_t tail_length) {
    if (tail_length >= 8) {
        hash = skh_xxh64_eight_step(hash, skh_load64(tail));
        if (tail_length == 8) return hash;
        tail += 8;
        tail_length -= 8;
    }
    return skh_xxh64_fold_below_8(hash, tail, tail_length);
}

/* The hash after a tail of 16 bytes and more. Without a loop keys of 16 and 24 bytes are 10 %
 * faster. */
SKH_INLINE uint64_t skh_xxh64_fold_from_16(uint64_t hash, const unsigned char *tail,
                                           uint64_t tail_length) {
    hash = skh_xxh64_eight_step(skh_xxh64_eight_step(hash, skh_load64(tail)), skh_load64(tail + 8));
    if (tail_length == 16) return hash;
    return skh_xxh64_fold_below_16(hash, tail + 16, tail_length - 16);
}

/* The hash after the tail, which is empty after full stripes, and the last mixing. */
SKH_INLINE uint64_t skh_xxh64_mix_rest(uint64_t hash, const unsigned char *tail,
                                       uint64_t tail_length) {
    if (tail_length != 0) {
        if (tail_length < 16) {
            hash = skh_xxh64_fold_below_16(hash, tail, tail_length);
        } else {
            hash = skh_xxh64_fold_from_16(hash, tail, tail_length);
        }
    }
    return skh_xxh64_avalanche(hash);
}

/* The lanes of a stream without bytes. */
SKH_INLINE struct skh_xxh64_lanes skh_xxh64_start(uint64_t seed) {
    const struct skh_xxh64_lanes lanes = {seed + SKH_PRIME1 + SKH_PRIME2, seed + SKH_PRIME2, seed,
                                          seed - SKH_PRIME1};
    return lanes;
}

/* Updates each lane with its word of a stripe. */
SKH_INLINE void skh_xxh64_stripe_round(struct skh_xxh64_lanes *lanes, const unsigned char *stripe) {
    lanes->v1 = skh_xxh64_round(lanes->v1, skh_load64(stripe));
    lanes->v2 = skh_xxh64_round(lanes->v2, skh_load64(stripe + 8));
    lanes->v3 = skh_xxh64_round(lanes->v3, skh_load64(stripe + 16));
    lanes->v4 = skh_xxh64_round(lanes->v4, skh_load64(stripe + 24));
}

/* Folds stripes into the lanes, one after another. */
SKH_INLINE void skh_xxh64_fold_stripes(struct skh_xxh64_lanes *lanes, const unsigned char *stripes,
                                       uint64_t stripes_count) {
    for (uint64_t i = 0; i < stripes_count; i++) {
        skh_xxh64_stripe_round(lanes, stripes + i * 32);
    }
}

/* The hash after a lane is merged into it. */
SKH_INLINE uint64_t skh_xxh64_merge_round(uint64_t hash, uint64_t lane) {
    return (hash ^ skh_xxh64_round(0, lane)) * SKH_PRIME1 + SKH_PRIME4;
}

/* The four lanes as one word. */
SKH_INLINE uint64_t skh_xxh64_merge(struct skh_xxh64_lanes words) {
    const uint64_t sum = skh_rotate64(words.v1, 1) + skh_rotate64(words.v2, 7) +
                         skh_rotate64(words.v3, 12) + skh_rotate64(words.v4, 18);
    uint64_t hash = skh_xxh64_merge_round(sum, words.v1);
    hash = skh_xxh64_merge_round(hash, words.v2);
    hash = skh_xxh64_merge_round(hash, words.v3);
    return skh_xxh64_merge_round(hash, words.v4);
}

/* The lanes after these stripes, as one word. */
SKH_INLINE uint64_t skh_xxh64_merge_stripes(const unsigned char *stripes, uint64_t stripes_count,
                                            uint64_t seed) {
    struct skh_xxh64_lanes lanes = skh_xxh64_start(seed);
    skh_xxh64_fold_stripes(&lanes, stripes, stripes_count);
    return skh_xxh64_merge(lanes);
}

/* The hash of 32 bytes and more. */
SKH_INLINE uint64_t skh_xxh64_hash_long(const unsigned char *bytes, uint64_t bytes_length,
                                        uint64_t seed) {
    return skh_xxh64_mix_rest(skh_xxh64_merge_stripes(bytes, bytes_length / 32, seed) +
                                  bytes_length,
                              bytes + bytes_length / 32 * 32, bytes_length % 32);
}

/* The hash of 32 to 63 bytes. In a separate call a compiler knows that there is one stripe and
 * makes no loop: keys of 32 bytes are 10 % faster. */
static SKH_NOINLINE uint64_t skh_xxh64_hash_one_stripe(const unsigned char *bytes,
                                                       uint64_t bytes_length, uint64_t seed) {
    SKH_REQUIRES(bytes_length >= 32 && bytes_length < 64);
    return skh_xxh64_hash_long(bytes, bytes_length, seed);
}

/* The hash of 64 bytes and more. */
static SKH_NOINLINE uint64_t skh_xxh64_hash_stripes(const unsigned char *bytes,
                                                    uint64_t bytes_length, uint64_t seed) {
    SKH_REQUIRES(bytes_length >= 64);
    return skh_xxh64_hash_long(bytes, bytes_length, seed);
}

/* The 64-bit hash of bytes under a seed, in one call.
 *
 * It reads the bytes in place, which is faster than a hasher for short keys. */
SKH_INLINE uint64_t skh_xxh64_hash(const unsigned char *bytes, uint64_t bytes_length,
                                   uint64_t seed) {
    const uint64_t hash = seed + SKH_PRIME5 + bytes_length;
    if (bytes_length < 16)
        return skh_xxh64_avalanche(skh_xxh64_fold_below_16(hash, bytes, bytes_length));
    if (bytes_length < 32)
        return skh_xxh64_avalanche(skh_xxh64_fold_from_16(hash, bytes, bytes_length));
    if (bytes_length < 64) return skh_xxh64_hash_one_stripe(bytes, bytes_length, seed);
    return skh_xxh64_hash_stripes(bytes, bytes_length, seed);
}

/* The 64-bit hash of the eight little-endian bytes of `input`, under a seed. */
SKH_INLINE uint64_t skh_xxh64_hash_u64(uint64_t input, uint64_t seed) {
    return skh_xxh64_avalanche(skh_xxh64_eight_step(seed + SKH_PRIME5 + 8, input));
}

/* How many bytes of `waiting` count. */
SKH_INLINE uint64_t skh_xxh64_state_waiting_count(const sketch_xxh64_state_t *state) {
    return state->total % 32;
}

/* Appends bytes to the partial stripe, which stays partial. */
SKH_INLINE void skh_xxh64_state_write_within(sketch_xxh64_state_t *state,
                                             const unsigned char *bytes, uint64_t bytes_length) {
    const uint64_t count = skh_xxh64_state_waiting_count(state);
    state->total += bytes_length;
    skh_copy_small(state->waiting, count, bytes, bytes_length);
}

/* The lanes after the stripe that `bytes` complete. Without bytes there is none. */
SKH_INLINE struct skh_xxh64_lanes skh_xxh64_complete(struct skh_xxh64_lanes lanes,
                                                     unsigned char *buffer, uint64_t count,
                                                     const unsigned char *bytes,
                                                     uint64_t bytes_length) {
    if (bytes_length == 0) return lanes;
    skh_copy_small(buffer, count, bytes, bytes_length);
    skh_xxh64_stripe_round(&lanes, buffer);
    return lanes;
}

/* Folds `bytes`, which come after `count` waiting bytes in `buffer`: the stripe that they
 * complete, if there is a partial one, and then full stripes straight from the slice. The bytes
 * after the last full stripe go to the start of `buffer`.
 *
 * They are stored before the run of stripes: the next write reads them, and a processor is slow
 * to read what it has just stored. */
SKH_INLINE struct skh_xxh64_lanes skh_xxh64_consume(struct skh_xxh64_lanes lanes,
                                                    unsigned char *buffer, uint64_t count,
                                                    const unsigned char *bytes,
                                                    uint64_t bytes_length) {
    /* 0 if no stripe is partial. */
    const uint64_t missing = (32 - count) % 32;
    lanes = skh_xxh64_complete(lanes, buffer, count, bytes, missing);
    const unsigned char *const rest = bytes + missing;
    const uint64_t rest_length = bytes_length - missing;
    skh_copy_small(buffer, 0, rest + rest_length / 32 * 32, rest_length % 32);
    skh_xxh64_fold_stripes(&lanes, rest, rest_length / 32);
    return lanes;
}

/* The lanes after the last full stripe. */
SKH_INLINE struct skh_xxh64_lanes skh_xxh64_state_lanes(const sketch_xxh64_state_t *state) {
    const struct skh_xxh64_lanes lanes = {state->v1, state->v2, state->v3, state->v4};
    return lanes;
}

/* Completes the partial stripe, and goes on after it. A separate call costs short writes
 * nothing. */
static SKH_NOINLINE void skh_xxh64_state_write_across(sketch_xxh64_state_t *state,
                                                      const unsigned char *bytes,
                                                      uint64_t bytes_length) {
    const uint64_t count = skh_xxh64_state_waiting_count(state);
    state->total += bytes_length;
    const struct skh_xxh64_lanes lanes =
        skh_xxh64_consume(skh_xxh64_state_lanes(state), state->waiting, count, bytes, bytes_length);
    state->v1 = lanes.v1;
    state->v2 = lanes.v2;
    state->v3 = lanes.v3;
    state->v4 = lanes.v4;
}

/* Appends bytes to the stream. */
SKH_INLINE void skh_xxh64_state_write(sketch_xxh64_state_t *state, const unsigned char *bytes,
                                      uint64_t bytes_length) {
    if (SKH_LIKELY(bytes_length < 32 - skh_xxh64_state_waiting_count(state))) {
        skh_xxh64_state_write_within(state, bytes, bytes_length);
    } else {
        skh_xxh64_state_write_across(state, bytes, bytes_length);
    }
}

/* The hash after a tail of any length. */
SKH_INLINE uint64_t skh_xxh64_fold_tail(uint64_t hash, const unsigned char *tail,
                                        uint64_t tail_length) {
    while (tail_length >= 8) {
        hash = skh_xxh64_eight_step(hash, skh_load64(tail));
        tail += 8;
        tail_length -= 8;
    }
    return skh_xxh64_fold_below_8(hash, tail, tail_length);
}

/* The 64-bit hash of all bytes so far, as of a hasher that resumes the state.
 *
 * It reads the waiting bytes in place, where a hasher would copy them first. */
SKH_INLINE uint64_t skh_xxh64_state_finish(const sketch_xxh64_state_t *state) {
    uint64_t hash = state->total < 32 ? state->seed + SKH_PRIME5
                                      : skh_xxh64_merge(skh_xxh64_state_lanes(state));
    hash += state->total;
    return skh_xxh64_avalanche(
        skh_xxh64_fold_tail(hash, state->waiting, skh_xxh64_state_waiting_count(state)));
}

/* The hash of one key of a column. A processor cannot foresee branches on lengths that do not
 * repeat, so a short key takes one of them, after which a compiler knows its length. A long key
 * is hashed here, since a call in the loop over the keys takes 1.1 to 1.2 times as long. */
SKH_INLINE uint64_t skh_xxh64_hash_one_of_many(const unsigned char *bytes, uint64_t bytes_length,
                                               uint64_t seed) {
    if (bytes_length >= 32) return skh_xxh64_hash_long(bytes, bytes_length, seed);
    const uint64_t hash = seed + SKH_PRIME5 + bytes_length;
    switch (bytes_length) {
    case 0: return skh_xxh64_mix_rest(hash, bytes, 0);
    case 1: return skh_xxh64_mix_rest(hash, bytes, 1);
    case 2: return skh_xxh64_mix_rest(hash, bytes, 2);
    case 3: return skh_xxh64_mix_rest(hash, bytes, 3);
    case 4: return skh_xxh64_mix_rest(hash, bytes, 4);
    case 5: return skh_xxh64_mix_rest(hash, bytes, 5);
    case 6: return skh_xxh64_mix_rest(hash, bytes, 6);
    case 7: return skh_xxh64_mix_rest(hash, bytes, 7);
    case 8: return skh_xxh64_mix_rest(hash, bytes, 8);
    case 9: return skh_xxh64_mix_rest(hash, bytes, 9);
    case 10: return skh_xxh64_mix_rest(hash, bytes, 10);
    case 11: return skh_xxh64_mix_rest(hash, bytes, 11);
    case 12: return skh_xxh64_mix_rest(hash, bytes, 12);
    case 13: return skh_xxh64_mix_rest(hash, bytes, 13);
    case 14: return skh_xxh64_mix_rest(hash, bytes, 14);
    case 15: return skh_xxh64_mix_rest(hash, bytes, 15);
    case 16: return skh_xxh64_mix_rest(hash, bytes, 16);
    case 17: return skh_xxh64_mix_rest(hash, bytes, 17);
    case 18: return skh_xxh64_mix_rest(hash, bytes, 18);
    case 19: return skh_xxh64_mix_rest(hash, bytes, 19);
    case 20: return skh_xxh64_mix_rest(hash, bytes, 20);
    case 21: return skh_xxh64_mix_rest(hash, bytes, 21);
    case 22: return skh_xxh64_mix_rest(hash, bytes, 22);
    case 23: return skh_xxh64_mix_rest(hash, bytes, 23);
    case 24: return skh_xxh64_mix_rest(hash, bytes, 24);
    case 25: return skh_xxh64_mix_rest(hash, bytes, 25);
    case 26: return skh_xxh64_mix_rest(hash, bytes, 26);
    case 27: return skh_xxh64_mix_rest(hash, bytes, 27);
    case 28: return skh_xxh64_mix_rest(hash, bytes, 28);
    case 29: return skh_xxh64_mix_rest(hash, bytes, 29);
    case 30: return skh_xxh64_mix_rest(hash, bytes, 30);
    }
    return skh_xxh64_mix_rest(hash, bytes, 31);
}

/* The 64-bit hash of each key of a run under a seed: of key `start`, and of as many keys as
 * `out` has places. The caller must have checked the offsets, as `skh_check_offsets32` does. */
static SKH_NOINLINE void skh_xxh64_hash_run32(const unsigned char *bytes, const uint32_t *offsets,
                                              uint64_t start, uint64_t seed, uint64_t *out,
                                              uint64_t out_count) {
    for (uint64_t i = 0; i < out_count; i++) {
        const uint64_t first = skh_get32(offsets + start + i);
        skh_set64(out + i,
                  skh_xxh64_hash_one_of_many(
                      bytes + first, (uint64_t)skh_get32(offsets + start + i + 1) - first, seed));
    }
}

/* The 64-bit hash of each key of a column under a seed, each at its place of `out`.
 *
 * Key i is the bytes from offset i up to offset i + 1, as Apache Arrow lays out strings. The
 * first offset may be above 0. The column has as many keys as `out` has places, and one offset
 * more; further offsets are not read. A column without keys may have no offsets. Arrow's offsets
 * are signed: a negative one, read as unsigned, is at least 2^31 or 2^63, which is past the end
 * of all shorter columns. */
SKH_INLINE struct skh_result skh_xxh64_hash_each32(const unsigned char *bytes,
                                                   uint64_t bytes_length, const uint32_t *offsets,
                                                   uint64_t offsets_count, uint64_t seed,
                                                   uint64_t *out, uint64_t out_count) {
    const struct skh_result result =
        skh_check_offsets32(bytes_length, offsets, offsets_count, out_count);
    if (SKH_UNLIKELY(result.is_error)) return skh_error(result.value);
    skh_xxh64_hash_run32(bytes, offsets, 0, seed, out, out_count);
    return skh_ok(0);
}

/* `skh_xxh64_hash_run32` for offsets of 64 bits. */
static SKH_NOINLINE void skh_xxh64_hash_run64(const unsigned char *bytes, const uint64_t *offsets,
                                              uint64_t start, uint64_t seed, uint64_t *out,
                                              uint64_t out_count) {
    for (uint64_t i = 0; i < out_count; i++) {
        const uint64_t first = skh_get64(offsets + start + i);
        skh_set64(out + i, skh_xxh64_hash_one_of_many(
                               bytes + first, skh_get64(offsets + start + i + 1) - first, seed));
    }
}

/* `skh_xxh64_hash_each32` for offsets of 64 bits. */
SKH_INLINE struct skh_result skh_xxh64_hash_each64(const unsigned char *bytes,
                                                   uint64_t bytes_length, const uint64_t *offsets,
                                                   uint64_t offsets_count, uint64_t seed,
                                                   uint64_t *out, uint64_t out_count) {
    const struct skh_result result =
        skh_check_offsets64(bytes_length, offsets, offsets_count, out_count);
    if (SKH_UNLIKELY(result.is_error)) return skh_error(result.value);
    skh_xxh64_hash_run64(bytes, offsets, 0, seed, out, out_count);
    return skh_ok(0);
}

/* The 64-bit hash of each number's eight little-endian bytes under a seed, each at its place of
 * `out`, for as many numbers as `out` has places. */
SKH_INLINE struct skh_result skh_xxh64_hash_each_u64(const uint64_t *input, uint64_t input_count,
                                                     uint64_t seed, uint64_t *out,
                                                     uint64_t out_count) {
    if (SKH_UNLIKELY(input_count < out_count)) return skh_error(input_count);
    for (uint64_t i = 0; i < out_count; i++) {
        skh_set64(out + i, skh_xxh64_hash_u64(skh_get64(input + i), seed));
    }
    return skh_ok(0);
}

/* The 64-bit hash of the four little-endian bytes of `input`, under a seed. */
SKH_INLINE uint64_t skh_xxh64_hash_u32(uint32_t input, uint64_t seed) {
    return skh_xxh64_avalanche(skh_xxh64_four_step(seed + SKH_PRIME5 + 4, input));
}

/* ---- MurmurHash3 x64 128 */

#define SKH_C1 0x87c37b91114253d5u
#define SKH_C2 0x4cf5ad432745937fu

/* The first word of a block, before it is joined to the state. */
SKH_INLINE uint64_t skh_murmur3_mix1(uint64_t k1) { return skh_rotate64(k1 * SKH_C1, 31) * SKH_C2; }

/* The second word of a block, before it is joined to the state. */
SKH_INLINE uint64_t skh_murmur3_mix2(uint64_t k2) { return skh_rotate64(k2 * SKH_C2, 33) * SKH_C1; }

/* The pair after one block of the words `k1` and `k2`.
 *
 * h2 depends on h1. Using h1 before its constant is added, and adding five times that constant
 * to h2 at the end, takes one addition off the critical path. */
SKH_INLINE struct skh_pair skh_murmur3_step(uint64_t h1, uint64_t h2, uint64_t k1, uint64_t k2) {
    const uint64_t before = (skh_rotate64(h1 ^ skh_murmur3_mix1(k1), 27) + h2) * 5;
    h2 = (skh_rotate64(h2 ^ skh_murmur3_mix2(k2), 31) + before) * 5 + (uint64_t)5 * 0x52dce729u +
         0x38495ab5u;
    return skh_pair_of(before + 0x52dce729u, h2);
}

/* The pair after blocks. */
SKH_INLINE struct skh_pair skh_murmur3_fold_blocks(uint64_t h1, uint64_t h2,
                                                   const unsigned char *blocks,
                                                   uint64_t blocks_count) {
    while (blocks_count != 0) {
        const struct skh_pair pair =
            skh_murmur3_step(h1, h2, skh_load64(blocks), skh_load64(blocks + 8));
        blocks += 16;
        blocks_count--;
        h1 = pair.first;
        h2 = pair.second;
    }
    return skh_pair_of(h1, h2);
}

/* The number of `count` bytes, from the numbers of their first and of their last `width` bytes. */
SKH_INLINE uint64_t skh_murmur3_combine_overlapping(uint32_t first, uint32_t last, uint64_t width,
                                                    uint64_t count) {
    /* The shift drops the bytes that are in `first`. */
    const uint64_t rest = (uint64_t)last >> ((width * 2 - count) * 8);
    return (uint64_t)first | (rest << (width * 8));
}

/* The little-endian number of fewer than eight bytes. */
SKH_INLINE uint64_t skh_murmur3_read_word_le(const unsigned char *bytes, uint64_t bytes_length) {
    if (bytes_length == 0) return 0;
    if (bytes_length == 1) return bytes[0];
    if (bytes_length >= 4)
        return skh_murmur3_combine_overlapping(
            skh_load32(bytes), skh_load32(bytes + bytes_length - 4), 4, bytes_length);
    const uint32_t first = skh_load16(bytes);
    return skh_murmur3_combine_overlapping(first, skh_load16(bytes + bytes_length - 2), 2,
                                           bytes_length);
}

/* As `skh_murmur3_read_partial_words`, whose second clause is proved from this function's only
 * one. */
SKH_INLINE struct skh_pair skh_murmur3_read_two_words(const unsigned char *bytes,
                                                      uint64_t bytes_length) {
    if (bytes_length > 8) {
        /* The shift drops the bytes that are in the first word. */
        const uint64_t last = skh_load64(bytes + bytes_length - 8) >> ((16 - bytes_length) * 8);
        return skh_pair_of(skh_load64(bytes), last);
    }
    if (bytes_length == 8) return skh_pair_of(skh_load64(bytes), 0);
    return skh_pair_of(skh_murmur3_read_word_le(bytes, bytes_length), 0);
}

/* The little-endian number of fewer than 16 bytes as two words, the lower first. */
SKH_INLINE struct skh_pair skh_murmur3_read_partial_words(const unsigned char *bytes,
                                                          uint64_t bytes_length) {
    return skh_murmur3_read_two_words(bytes, bytes_length);
}

/* The pair after the tail. A word of the tail without bytes changes nothing, so it is left out. */
SKH_INLINE struct skh_pair skh_murmur3_mix_tail(uint64_t h1, uint64_t h2, const unsigned char *tail,
                                                uint64_t tail_length) {
    if (tail_length == 0) return skh_pair_of(h1, h2);
    const struct skh_pair k = skh_murmur3_read_partial_words(tail, tail_length);
    if (tail_length <= 8) return skh_pair_of(h1 ^ skh_murmur3_mix1(k.first), h2);
    return skh_pair_of(h1 ^ skh_murmur3_mix1(k.first), h2 ^ skh_murmur3_mix2(k.second));
}

/* Adds the second word to the first, and then the first to the second. */
SKH_INLINE struct skh_pair skh_murmur3_cross(uint64_t h1, uint64_t h2) {
    h1 += h2;
    return skh_pair_of(h1, h2 + h1);
}

/* The last mixing of a word. */
SKH_INLINE uint64_t skh_murmur3_fmix(uint64_t word) {
    const uint64_t once = skh_xor_shift(word, 33) * 0xff51afd7ed558ccdu;
    const uint64_t twice = skh_xor_shift(once, 33) * 0xc4ceb9fe1a85ec53u;
    return skh_xor_shift(twice, 33);
}

/* The hash of `total` bytes, from the pair after their blocks and their tail. */
SKH_INLINE struct skh_pair skh_murmur3_finalize(uint64_t h1, uint64_t h2, uint64_t total) {
    const struct skh_pair h = skh_murmur3_cross(h1 ^ total, h2 ^ total);
    return skh_murmur3_cross(skh_murmur3_fmix(h.first), skh_murmur3_fmix(h.second));
}

/* The 128-bit hash of bytes under a seed, as its first and its second word, in one call. */
SKH_INLINE struct skh_pair skh_murmur3_hash(const unsigned char *bytes, uint64_t bytes_length,
                                            uint64_t seed) {
    struct skh_pair h = skh_murmur3_fold_blocks(seed, seed, bytes, bytes_length / 16);
    h = skh_murmur3_mix_tail(h.first, h.second, bytes + bytes_length / 16 * 16, bytes_length % 16);
    return skh_murmur3_finalize(h.first, h.second, bytes_length);
}

/* A hasher with this seed, and no bytes. */
SKH_INLINE struct skh_murmur3_hasher skh_murmur3_with_seed(uint64_t seed) {
    const struct skh_murmur3_hasher hasher = {seed, seed, 0, 0, 0, 0};
    return hasher;
}

/* The number of a block, from its two words. */
SKH_INLINE skh_uint128 skh_murmur3_join_words(uint64_t low, uint64_t high) {
    return skh_wide(high, low);
}

/* The state of this hasher. */
SKH_INLINE sketch_murmur3_x64_128_state_t
skh_murmur3_state(const struct skh_murmur3_hasher *hasher) {
    sketch_murmur3_x64_128_state_t state;
    state.h1 = hasher->h1;
    state.h2 = hasher->h2;
    state.total = hasher->total;
    const skh_uint128 number = skh_murmur3_join_words(hasher->low, hasher->high);
    skh_store64(state.waiting, skh_wide_low(number));
    skh_store64(state.waiting + 8, skh_wide_high(number));
    return state;
}

/* How many bytes of `waiting` count. */
SKH_INLINE uint64_t skh_murmur3_state_waiting_count(const sketch_murmur3_x64_128_state_t *state) {
    return state->total % 16;
}

/* Appends bytes to the partial block, which stays partial. Through a hasher, writes of one byte
 * are 50 % slower. */
SKH_INLINE void skh_murmur3_state_write_within(sketch_murmur3_x64_128_state_t *state,
                                               const unsigned char *bytes, uint64_t bytes_length) {
    const uint64_t count = skh_murmur3_state_waiting_count(state);
    state->total += bytes_length;
    skh_copy_small(state->waiting, count, bytes, bytes_length);
}

/* The two words of a block, from its number. */
SKH_INLINE struct skh_pair skh_murmur3_split_words(skh_uint128 number) {
    return skh_pair_of(skh_wide_low(number), skh_wide_high(number));
}

/* The words of the first `count` bytes of a block, for a `count` below 16. */
SKH_INLINE struct skh_pair skh_murmur3_read_prefix(const unsigned char *block, uint64_t count) {
    return skh_murmur3_split_words(
        skh_wide_low_bits(skh_wide(skh_load64(block + 8), skh_load64(block)), count * 8));
}

/* A hasher that resumes a state. */
SKH_INLINE struct skh_murmur3_hasher
skh_murmur3_resume(const sketch_murmur3_x64_128_state_t *state) {
    const uint64_t count = skh_murmur3_state_waiting_count(state);
    const struct skh_pair low_high = skh_murmur3_read_prefix(state->waiting, count);
    const struct skh_murmur3_hasher hasher = {state->h1,      state->h2,       state->total,
                                              low_high.first, low_high.second, count};
    return hasher;
}

/* The words of `count` waiting bytes with a number placed after them. What exceeds a block is
 * dropped. */
SKH_INLINE struct skh_pair skh_murmur3_place_after(uint64_t low, uint64_t high, uint64_t count,
                                                   skh_uint128 number) {
    return skh_murmur3_split_words(
        skh_wide_add(skh_murmur3_join_words(low, high), skh_wide_left(number, count * 8)));
}

/* Completes the partial block, and goes on after it. `number` is the little-endian number of the
 * bytes, which are fewer than a block. */
SKH_INLINE void skh_murmur3_complete_block(struct skh_murmur3_hasher *hasher, uint64_t bytes_length,
                                           skh_uint128 number) {
    const struct skh_pair k =
        skh_murmur3_place_after(hasher->low, hasher->high, hasher->count, number);
    struct skh_pair pair = skh_murmur3_step(hasher->h1, hasher->h2, k.first, k.second);
    hasher->h1 = pair.first;
    hasher->h2 = pair.second;
    /* The shift drops the bytes that are in the block. */
    pair = skh_murmur3_split_words(skh_wide_right(number, (16 - hasher->count) * 8));
    hasher->low = pair.first;
    hasher->high = pair.second;
    hasher->total += bytes_length;
    hasher->count = hasher->count + bytes_length - 16;
}

/* The little-endian number of fewer than 16 bytes. */
SKH_INLINE skh_uint128 skh_murmur3_read_partial_le(const unsigned char *bytes,
                                                   uint64_t bytes_length) {
    const struct skh_pair low_high = skh_murmur3_read_partial_words(bytes, bytes_length);
    return skh_murmur3_join_words(low_high.first, low_high.second);
}

/* Appends a block's bytes or more. The first block completes the waiting bytes; the others are
 * folded straight from the slice. */
SKH_INLINE void skh_murmur3_write_blocks(struct skh_murmur3_hasher *hasher,
                                         const unsigned char *bytes, uint64_t bytes_length) {
    const skh_uint128 first = skh_wide(skh_load64(bytes + 8), skh_load64(bytes));
    const struct skh_pair k =
        skh_murmur3_place_after(hasher->low, hasher->high, hasher->count, first);
    const struct skh_pair h = skh_murmur3_step(hasher->h1, hasher->h2, k.first, k.second);
    const uint64_t missing = 16 - hasher->count;
    const unsigned char *const rest = bytes + missing;
    const uint64_t rest_length = bytes_length - missing;
    const unsigned char *const last = rest + rest_length / 16 * 16;
    struct skh_pair pair = skh_murmur3_fold_blocks(h.first, h.second, rest, rest_length / 16);
    hasher->h1 = pair.first;
    hasher->h2 = pair.second;
    pair = skh_murmur3_read_partial_words(last, rest_length % 16);
    hasher->low = pair.first;
    hasher->high = pair.second;
    hasher->total += bytes_length;
    hasher->count = rest_length % 16;
}

/* Appends bytes to the stream. */
SKH_INLINE void skh_murmur3_state_write(sketch_murmur3_x64_128_state_t *state,
                                        const unsigned char *bytes, uint64_t bytes_length) {
    if (SKH_LIKELY(bytes_length < 16 - skh_murmur3_state_waiting_count(state))) {
        skh_murmur3_state_write_within(state, bytes, bytes_length);
    } else {
        struct skh_murmur3_hasher hasher = skh_murmur3_resume(state);
        if (bytes_length < 16) {
            skh_murmur3_complete_block(&hasher, bytes_length,
                                       skh_murmur3_read_partial_le(bytes, bytes_length));
        } else {
            skh_murmur3_write_blocks(&hasher, bytes, bytes_length);
        }
        *state = skh_murmur3_state(&hasher);
    }
}

/* `skh_murmur3_finalize` with a branch that changes nothing, as `fmix(0)` is 0. It keeps
 * compilers from vectorizing a caller's loop over keys of 8 bytes, which is a third slower
 * without AVX-512. `skh_murmur3_hash` does without: there the branch makes keys of 1 to 8 bytes
 * 10 % slower. */
SKH_INLINE struct skh_pair skh_murmur3_finalize_unvectorized(uint64_t h1, uint64_t h2,
                                                             uint64_t total) {
    const struct skh_pair h = skh_murmur3_cross(h1 ^ total, h2 ^ total);
    const uint64_t first = h.first == 0 ? 0 : skh_murmur3_fmix(h.first);
    return skh_murmur3_cross(first, skh_murmur3_fmix(h.second));
}

/* The 128-bit hash of all bytes so far, as its first and its second word. */
SKH_INLINE struct skh_pair skh_murmur3_finish128(const struct skh_murmur3_hasher *hasher) {
    return skh_murmur3_finalize_unvectorized(hasher->h1 ^ skh_murmur3_mix1(hasher->low),
                                             hasher->h2 ^ skh_murmur3_mix2(hasher->high),
                                             hasher->total);
}

/* The 128-bit hash of each key of a column under a seed, each as its first and its second word
 * at its place of `out`.
 *
 * The column is laid out as for `skh_xxh64_hash_each32`. */
SKH_INLINE struct skh_result skh_murmur3_hash_each32(const unsigned char *bytes,
                                                     uint64_t bytes_length, const uint32_t *offsets,
                                                     uint64_t offsets_count, uint64_t seed,
                                                     uint64_t (*out)[2], uint64_t out_count) {
    const struct skh_result result =
        skh_check_offsets32(bytes_length, offsets, offsets_count, out_count);
    if (SKH_UNLIKELY(result.is_error)) return skh_error(result.value);
    for (uint64_t i = 0; i < out_count; i++) {
        const uint64_t first = skh_get32(offsets + i);
        const struct skh_pair h =
            skh_murmur3_hash(bytes + first, (uint64_t)skh_get32(offsets + i + 1) - first, seed);
        skh_set64(out[i], h.first);
        skh_set64(out[i] + 1, h.second);
    }
    return skh_ok(0);
}

/* `skh_murmur3_hash_each32` for offsets of 64 bits. */
SKH_INLINE struct skh_result skh_murmur3_hash_each64(const unsigned char *bytes,
                                                     uint64_t bytes_length, const uint64_t *offsets,
                                                     uint64_t offsets_count, uint64_t seed,
                                                     uint64_t (*out)[2], uint64_t out_count) {
    const struct skh_result result =
        skh_check_offsets64(bytes_length, offsets, offsets_count, out_count);
    if (SKH_UNLIKELY(result.is_error)) return skh_error(result.value);
    for (uint64_t i = 0; i < out_count; i++) {
        const uint64_t first = skh_get64(offsets + i);
        const struct skh_pair h =
            skh_murmur3_hash(bytes + first, skh_get64(offsets + i + 1) - first, seed);
        skh_set64(out[i], h.first);
        skh_set64(out[i] + 1, h.second);
    }
    return skh_ok(0);
}

/* ---- Seed hashes */

/* The seed hash of a seed, or 0 if the seed cannot be used. `compute_seed_hash` returns an error
 * in place of 0. */
SKH_INLINE uint16_t skh_seed_hash_of(uint64_t seed) {
    unsigned char bytes[8];
    skh_store64(bytes, seed);
    const struct skh_pair h = skh_murmur3_hash(bytes, 8, 0);
    return (uint16_t)(h.first % 65536);
}

/* ---- Bloom filter */

#define SKH_SALT0 0x47b6137bu
#define SKH_SALT1 0x44974d91u
#define SKH_SALT2 0x8824ad5bu
#define SKH_SALT3 0xa2b7289du
#define SKH_SALT4 0x705495c7u
#define SKH_SALT5 0x2df1424bu
#define SKH_SALT6 0x9efc4947u
#define SKH_SALT7 0x5c6bfb31u
static const unsigned char skh_union_fields[] = {28, 28, 0, 0, 28, 28, 0, 0, 28, 28, 0, 0, 0};

/* The weight of term `k`, from the one before it: times n / z / k. */
static uint64_t skh_bloom_next_weight(uint64_t weight, uint64_t keys, uint32_t log2_blocks,
                                      uint64_t k) {
    return skh_wide_low(skh_wide_right(skh_wide_mul(skh_wide(0, weight), skh_wide(0, keys)),
                                       (uint64_t)log2_blocks)) /
           k;
}

/* The eighth power of 1 - clear / 2^50, in parts of 2^60. */
static uint64_t skh_bloom_covered(uint64_t clear) {
    const skh_uint128 share = skh_wide(0, ((uint64_t)1 << 50) - clear);
    const skh_uint128 square = skh_wide_right(skh_wide_mul(share, share), 50);
    const skh_uint128 fourth = skh_wide_right(skh_wide_mul(square, square), 50);
    return skh_wide_low(skh_wide_right(skh_wide_mul(fourth, fourth), 40));
}

/* Whether a filter of 2^log2_blocks blocks keeps the rate. */
static bool skh_bloom_keeps_rate(uint64_t keys, uint32_t log2_blocks, uint64_t one_in) {
    if ((uint64_t)128 << log2_blocks < keys) return false;
    /* The sum of the terms' weights, and of the terms in parts of 2^60. */
    uint64_t weight = (uint64_t)1 << 40;
    uint64_t all = weight;
    skh_uint128 found = skh_wide(0, 0);
    uint64_t clear = (uint64_t)1 << 50;
    for (uint64_t k = 1; k < 384; k++) {
        weight = skh_bloom_next_weight(weight, keys, log2_blocks, k);
        clear = clear / 32 * 31;
        all += weight;
        found = skh_wide_add(
            found, skh_wide_mul(skh_wide(0, weight), skh_wide(0, skh_bloom_covered(clear))));
        /* The weights stay below 2^48. Only the ratio of the sums matters. */
        const bool is_large = weight >> 48 != 0;
        if (is_large) {
            weight >>= 8;
            all >>= 8;
            found = skh_wide_right(found, 8);
        }
    }
    return !skh_wide_above(
        found, skh_wide_mul(skh_wide(0, all), skh_wide(0, ((uint64_t)1 << 60) / one_in)));
}

/* The smallest number of bytes, a power of two from 32 bytes to 128 MiB, for a filter of `keys`
 * different values with a false positive rate of at most one in `one_in`.
 *
 * Returns skh_none() if 128 MiB are too few, or if `one_in` is 0.
 *
 * The rate of this size by the Poisson model is at most one in `one_in`, but for 2^-22, as
 * `size_law` says. Parquet's writers use m = -8 n / ln(1 - p^(1/8)) bits, which ignores that
 * blocks fill unevenly. At exactly that size the rate is up to 50 % above the target for targets
 * of 1 %: 0.0146 for 0.01. */
static struct skh_option skh_bloom_bytes_for(uint64_t keys, uint64_t one_in) {
    if (one_in == 0) return skh_none();
    if (one_in == 1) return skh_some(32);
    for (uint32_t log2_blocks = 0; log2_blocks < 23; log2_blocks++) {
        if (skh_bloom_keeps_rate(keys, log2_blocks, one_in))
            return skh_some((uint64_t)32 << log2_blocks);
    }
    return skh_none();
}

/* Whether a filter can have this many bytes: a positive multiple of 32 below 2^37. */
SKH_INLINE bool skh_bloom_is_length(uint64_t bytes) {
    /* The rotation puts the remainder by 32 above all numbers of blocks, and 0 - 1 wraps to the
     * largest number. With three comparisons a call with a hash took 1.1 to 1.4 times as long. */
    return skh_rotate64(bytes, 59) - 1 < 0xffffffffu;
}

/* The offset of a hash's block in a filter with this many bytes. */
SKH_INLINE uint64_t skh_bloom_block_start(uint64_t bytes, uint64_t hash) {
    const uint64_t blocks = bytes / 32;
    return (((hash >> 32) * blocks) >> 32) * 32;
}

/* Sets the eight bits of a hash. */
SKH_INLINE void skh_bloom_insert_into(bool has_vectors, unsigned char *filter,
                                      uint64_t filter_length, uint64_t hash) {
    const uint64_t start = skh_bloom_block_start(filter_length, hash);
    unsigned char *const block = filter + start;
    skh_store32(block,
                skh_load32(block) | skh_bit(has_vectors, ((uint32_t)hash * SKH_SALT0) >> 27));
    skh_store32(block + 4,
                skh_load32(block + 4) | skh_bit(has_vectors, ((uint32_t)hash * SKH_SALT1) >> 27));
    skh_store32(block + 8,
                skh_load32(block + 8) | skh_bit(has_vectors, ((uint32_t)hash * SKH_SALT2) >> 27));
    skh_store32(block + 12,
                skh_load32(block + 12) | skh_bit(has_vectors, ((uint32_t)hash * SKH_SALT3) >> 27));
    skh_store32(block + 16,
                skh_load32(block + 16) | skh_bit(has_vectors, ((uint32_t)hash * SKH_SALT4) >> 27));
    skh_store32(block + 20,
                skh_load32(block + 20) | skh_bit(has_vectors, ((uint32_t)hash * SKH_SALT5) >> 27));
    skh_store32(block + 24,
                skh_load32(block + 24) | skh_bit(has_vectors, ((uint32_t)hash * SKH_SALT6) >> 27));
    skh_store32(block + 28,
                skh_load32(block + 28) | skh_bit(has_vectors, ((uint32_t)hash * SKH_SALT7) >> 27));
}

/* Whether the eight bits of a hash are set. */
SKH_INLINE bool skh_bloom_is_in(bool has_vectors, const unsigned char *filter,
                                uint64_t filter_length, uint64_t hash) {
    const uint64_t start = skh_bloom_block_start(filter_length, hash);
    const unsigned char *const block = filter + start;
    /* All eight are set if setting them changes nothing. */
    return !skh_any(
        has_vectors, ~skh_load32(block) & skh_bit(has_vectors, ((uint32_t)hash * SKH_SALT0) >> 27),
        ~skh_load32(block + 4) & skh_bit(has_vectors, ((uint32_t)hash * SKH_SALT1) >> 27),
        ~skh_load32(block + 8) & skh_bit(has_vectors, ((uint32_t)hash * SKH_SALT2) >> 27),
        ~skh_load32(block + 12) & skh_bit(has_vectors, ((uint32_t)hash * SKH_SALT3) >> 27),
        ~skh_load32(block + 16) & skh_bit(has_vectors, ((uint32_t)hash * SKH_SALT4) >> 27),
        ~skh_load32(block + 20) & skh_bit(has_vectors, ((uint32_t)hash * SKH_SALT5) >> 27),
        ~skh_load32(block + 24) & skh_bit(has_vectors, ((uint32_t)hash * SKH_SALT6) >> 27),
        ~skh_load32(block + 28) & skh_bit(has_vectors, ((uint32_t)hash * SKH_SALT7) >> 27));
}

/* Inserts the values with these hashes. It is not inlined, so columns of keys and of hashes
 * share one copy. */
SKH_INLINE void skh_bloom_insert_hashes_any(bool has_vectors, unsigned char *filter,
                                            uint64_t filter_length, const uint64_t *hashes,
                                            uint64_t hashes_count) {
    for (uint64_t i = 0; i < hashes_count; i++) {
        skh_bloom_insert_into(has_vectors, filter, filter_length, skh_get64(hashes + i));
    }
}

SKH_CHOOSE(static SKH_NOINLINE, void, , skh_bloom_insert_hashes,
           (unsigned char *filter, uint64_t filter_length, const uint64_t *hashes,
            uint64_t hashes_count),
           (filter, filter_length, hashes, hashes_count))

/* Writes to `found[start..]` whether the filter contains the values with these hashes. It is not
 * inlined, so columns of keys and of hashes share one copy. */
SKH_INLINE void skh_bloom_find_hashes_any(bool has_vectors, const unsigned char *filter,
                                          uint64_t filter_length, const uint64_t *hashes,
                                          uint64_t hashes_count, unsigned char *found,
                                          uint64_t start) {
    for (uint64_t i = 0; i < hashes_count; i++) {
        found[start + i] =
            (uint8_t)skh_bloom_is_in(has_vectors, filter, filter_length, skh_get64(hashes + i));
    }
}

SKH_CHOOSE(static SKH_NOINLINE, void, , skh_bloom_find_hashes,
           (const unsigned char *filter, uint64_t filter_length, const uint64_t *hashes,
            uint64_t hashes_count, unsigned char *found, uint64_t start),
           (filter, filter_length, hashes, hashes_count, found, start))

/* Folds a filter of an even number of blocks. */
static void skh_bloom_fold_blocks(unsigned char *filter, uint64_t filter_length) {
    for (uint64_t i = 0; i < filter_length / 64; i++) {
        unsigned char *const left = filter + i * 64;
        unsigned char *const right = filter + i * 64 + 32;
        unsigned char *const place = filter + i * 32;
        const uint32_t word = skh_load32(left) | skh_load32(right);
        const uint32_t word2 = skh_load32(left + 4) | skh_load32(right + 4);
        const uint32_t word3 = skh_load32(left + 8) | skh_load32(right + 8);
        const uint32_t word4 = skh_load32(left + 12) | skh_load32(right + 12);
        const uint32_t word5 = skh_load32(left + 16) | skh_load32(right + 16);
        const uint32_t word6 = skh_load32(left + 20) | skh_load32(right + 20);
        const uint32_t word7 = skh_load32(left + 24) | skh_load32(right + 24);
        const uint32_t word8 = skh_load32(left + 28) | skh_load32(right + 28);
        skh_store32(place, word);
        skh_store32(place + 4, word2);
        skh_store32(place + 8, word3);
        skh_store32(place + 12, word4);
        skh_store32(place + 16, word5);
        skh_store32(place + 20, word6);
        skh_store32(place + 24, word7);
        skh_store32(place + 28, word8);
    }
}

/* How many of the 2^40 choices of a bit in each word choose set bits alone, in block k of the
 * folded filter. */
static uint64_t skh_bloom_found_by_union(const unsigned char *filter, uint64_t k) {
    uint64_t found = 1;
    for (uint64_t w = 0; w < 8; w++) {
        const uint32_t left = skh_load32(filter + k * 64 + w * 4);
        const uint32_t right = skh_load32(filter + k * 64 + 32 + w * 4);
        found *= (uint64_t)skh_ones32(left | right);
    }
    return found;
}

/* Whether a filter has the rate of one in `one_in` once it is folded. */
static bool skh_bloom_has_rate_folded(const unsigned char *filter, uint64_t filter_length,
                                      uint64_t one_in) {
    const uint64_t blocks = filter_length / 64;
    skh_uint128 found = skh_wide(0, 0);
    for (uint64_t k = 0; k < blocks; k++) {
        found = skh_wide_add(found, skh_wide(0, skh_bloom_found_by_union(filter, k)));
    }
    /* Both numbers are below 2^72. If these bits are set, the product is 2^72 at least. */
    const bool is_above = skh_wide_high(found) != 0 && one_in >> 8 != 0;
    if (one_in == 0 || is_above) return false;
    return !skh_wide_above(skh_wide_mul(found, skh_wide(0, one_in)),
                           skh_wide_left(skh_wide(0, blocks), 40));
}

/* The first byte of a variable-length number. `skh_bloom_read_varint` reads it. */
static uint8_t skh_bloom_varint_byte(uint64_t number) {
    if (number < 128) return (uint8_t)number;
    return (uint8_t)(number % 128 + 128);
}

/* Writes the header of a filter with this many bytes to the start of `out`, and returns the
 * number of bytes of the header: 15 to 19.
 *
 * Returns skh_none() if `bytes` is not a positive multiple of 32 below 2^31, or if `out` is
 * shorter than the header. `out` is then unchanged. */
static struct skh_option skh_bloom_write_header(uint64_t bytes, unsigned char *out,
                                                uint64_t out_length) {
    if (!skh_bloom_is_length(bytes) || bytes >= (uint64_t)1 << 31) return skh_none();
    const uint64_t a = bytes * 2;
    const uint64_t b = a / 128;
    const uint64_t c = b / 128;
    const uint64_t d = c / 128;
    const uint64_t e = d / 128;
    const unsigned char number[6] = {21,
                                     skh_bloom_varint_byte(a),
                                     skh_bloom_varint_byte(b),
                                     skh_bloom_varint_byte(c),
                                     skh_bloom_varint_byte(d),
                                     skh_bloom_varint_byte(e)};
    const uint64_t start =
        (uint64_t)(b != 0) + (uint64_t)(c != 0) + (uint64_t)(d != 0) + (uint64_t)(e != 0) + 2;
    const uint64_t end = start + 13;
    if (out_length < end) return skh_none();
    /* A copy of constant length needs no `memcpy`, which the C library would have to import. The
     * other fields replace what is copied past the end of the number. */
    memcpy(out, number, 6);
    memcpy(out + start, skh_union_fields, 13);
    return skh_some(end);
}

/* A variable-length number, from its first byte, as `skh_bloom_varint_byte` returns it, and the
 * number in the bytes after it. */
static uint64_t skh_bloom_read_varint(uint8_t byte, uint64_t after) {
    if (byte < 128) return byte;
    return (uint64_t)(uint8_t)(byte - 128) + after * 128;
}

/* The length of a filter as its header has it, or 0 if the input is shorter than a header. */
static uint64_t skh_bloom_length_in(const unsigned char *input, uint64_t input_length) {
    if (input_length < 6) return 0;
    const uint64_t twice = skh_bloom_read_varint(
        input[1],
        skh_bloom_read_varint(
            input[2],
            skh_bloom_read_varint(
                input[3], skh_bloom_read_varint(input[4], skh_bloom_read_varint(input[5], 0)))));
    return twice / 2;
}

/* Whether `input` starts with `prefix`. */
static bool skh_bloom_has_prefix(const unsigned char *input, uint64_t input_length,
                                 const unsigned char *prefix, uint64_t prefix_length) {
    if (input_length < prefix_length) return false;
    for (uint64_t i = 0; i < prefix_length; i++) {
        if (input[i] != prefix[i]) return false;
    }
    return true;
}

/* ---- Calls */

/* Returns the version of the library. */
SKETCH_HASH_API uint32_t sketch_hash_version(void) { return 30200; }

/* Returns XXH64 of `length` bytes. It prints as "%016" PRIx64. */
SKETCH_HASH_API uint64_t sketch_xxh64(const void *input, size_t length, uint64_t seed) {
    return skh_xxh64_hash((const unsigned char *)input, length, seed);
}

/* Returns XXH64 of the eight bytes of a number, the lowest first. */
SKETCH_HASH_API uint64_t sketch_xxh64_u64(uint64_t value, uint64_t seed) {
    return skh_xxh64_hash_u64(value, seed);
}

/* Starts a state with a seed, and no bytes. */
SKETCH_HASH_API void sketch_xxh64_reset(sketch_xxh64_state_t *state, uint64_t seed) {
    const struct skh_xxh64_lanes lanes = skh_xxh64_start(seed);
    state->seed = seed;
    state->v1 = lanes.v1;
    state->v2 = lanes.v2;
    state->v3 = lanes.v3;
    state->v4 = lanes.v4;
    state->total = 0;
    memset(state->waiting, 0, 32);
}

/* Appends bytes to the input. Splitting it into several calls gives the same hash. */
SKETCH_HASH_API void sketch_xxh64_update(sketch_xxh64_state_t *state, const void *input,
                                         size_t length) {
    skh_xxh64_state_write(state, (const unsigned char *)input, length);
}

/* Returns XXH64 of all bytes since the reset. The state is unchanged, so more may follow. */
SKETCH_HASH_API uint64_t sketch_xxh64_digest(const sketch_xxh64_state_t *state) {
    return skh_xxh64_state_finish(state);
}

/* Writes the two words of MurmurHash3_x64_128 of `length` bytes, as the original's `out`. A seed
 * below 2^32 gives the original's hash. hash[0] and then hash[1], each as "%016" PRIx64, are the
 * 32 digits that sketchsum prints; for those of most other tools see
 * sketch_murmur3_x64_128_bytes. */
SKETCH_HASH_API void sketch_murmur3_x64_128(const void *input, size_t length, uint64_t seed,
                                            uint64_t hash[2]) {
    const struct skh_pair h = skh_murmur3_hash(skh_slice(input), length, seed);
    hash[0] = h.first;
    hash[1] = h.second;
}

/* Starts a state with a seed, and no bytes. */
SKETCH_HASH_API void sketch_murmur3_x64_128_reset(sketch_murmur3_x64_128_state_t *state,
                                                  uint64_t seed) {
    struct skh_murmur3_hasher hasher = skh_murmur3_with_seed(seed);
    const sketch_murmur3_x64_128_state_t state2 = skh_murmur3_state(&hasher);
    state->h1 = state2.h1;
    state->h2 = state2.h2;
    state->total = state2.total;
    memset(state->waiting, 0, 16);
}

/* Appends bytes to the input. Splitting it into several calls gives the same hash. */
SKETCH_HASH_API void sketch_murmur3_x64_128_update(sketch_murmur3_x64_128_state_t *state,
                                                   const void *input, size_t length) {
    skh_murmur3_state_write(state, (const unsigned char *)input, length);
}

/* Writes the two words of the hash of all bytes since the reset. The state is unchanged, so more
 * may follow. */
SKETCH_HASH_API void sketch_murmur3_x64_128_digest(const sketch_murmur3_x64_128_state_t *state,
                                                   uint64_t hash[2]) {
    struct skh_murmur3_hasher hasher = skh_murmur3_resume(state);
    const struct skh_pair h = skh_murmur3_finish128(&hasher);
    hash[0] = h.first;
    hash[1] = h.second;
}

/* Writes a hash in the byte order that most tools print: the lowest byte of each word first. */
SKETCH_HASH_API void sketch_murmur3_x64_128_bytes(const uint64_t hash[2], unsigned char out[16]) {
    const skh_uint128 number = skh_murmur3_join_words(hash[0], hash[1]);
    skh_store64(out, skh_wide_low(number));
    skh_store64(out + 8, skh_wide_high(number));
}

/* Writes the seed hash of a seed, by which sketches of Apache DataSketches tell whether they can
 * be merged: the low 16 bits of hash[0] of sketch_murmur3_x64_128 with seed 0 of the seed's
 * eight bytes, the lowest first. Returns 0 or SKETCH_ERROR_SEED. */
SKETCH_HASH_API int sketch_seed_hash(uint64_t seed, uint16_t *hash) {
    const uint16_t computed = skh_seed_hash_of(seed);
    if (computed == 0) return SKETCH_ERROR_SEED;
    *hash = computed;
    return SKETCH_OK;
}

/* Writes XXH64 of key i to out[i], for each i below `count`. The offsets have 32 bits. Returns 0
 * or SKETCH_ERROR_OFFSET. */
SKETCH_HASH_API int sketch_xxh64_each32(const void *input, size_t length, const uint32_t *offsets,
                                        size_t offset_count, uint64_t seed, uint64_t *out,
                                        size_t count, size_t *wrong_offset) {
    const struct skh_result hashed =
        skh_xxh64_hash_each32(skh_slice(input), length, offsets, offset_count, seed, out, count);
    if (!hashed.is_error) return SKETCH_OK;
    *wrong_offset = (size_t)hashed.value;
    return SKETCH_ERROR_OFFSET;
}

/* Writes XXH64 of key i to out[i], for each i below `count`. The offsets have 64 bits. Returns 0
 * or SKETCH_ERROR_OFFSET. */
SKETCH_HASH_API int sketch_xxh64_each64(const void *input, size_t length, const uint64_t *offsets,
                                        size_t offset_count, uint64_t seed, uint64_t *out,
                                        size_t count, size_t *wrong_offset) {
    const struct skh_result hashed =
        skh_xxh64_hash_each64(skh_slice(input), length, offsets, offset_count, seed, out, count);
    if (!hashed.is_error) return SKETCH_OK;
    *wrong_offset = (size_t)hashed.value;
    return SKETCH_ERROR_OFFSET;
}

/* Writes sketch_xxh64_u64 of values[i] to out[i], for each i below `count`. Returns 0, or
 * SKETCH_ERROR_COUNT if `value_count` is below `count`. */
SKETCH_HASH_API int sketch_xxh64_each_u64(const uint64_t *values, size_t value_count, uint64_t seed,
                                          uint64_t *out, size_t count) {
    const struct skh_result result = skh_xxh64_hash_each_u64(values, value_count, seed, out, count);
    if (result.is_error) return SKETCH_ERROR_COUNT;
    return SKETCH_OK;
}

/* Writes MurmurHash3_x64_128 of key i to out[i], for each i below `count`. The offsets have 32
 * bits. Returns 0 or SKETCH_ERROR_OFFSET. */
SKETCH_HASH_API int sketch_murmur3_x64_128_each32(const void *input, size_t length,
                                                  const uint32_t *offsets, size_t offset_count,
                                                  uint64_t seed, uint64_t (*out)[2], size_t count,
                                                  size_t *wrong_offset) {
    const struct skh_result hashed =
        skh_murmur3_hash_each32(skh_slice(input), length, offsets, offset_count, seed, out, count);
    if (!hashed.is_error) return SKETCH_OK;
    *wrong_offset = (size_t)hashed.value;
    return SKETCH_ERROR_OFFSET;
}

/* Writes MurmurHash3_x64_128 of key i to out[i], for each i below `count`. The offsets have 64
 * bits. Returns 0 or SKETCH_ERROR_OFFSET. */
SKETCH_HASH_API int sketch_murmur3_x64_128_each64(const void *input, size_t length,
                                                  const uint64_t *offsets, size_t offset_count,
                                                  uint64_t seed, uint64_t (*out)[2], size_t count,
                                                  size_t *wrong_offset) {
    const struct skh_result hashed =
        skh_murmur3_hash_each64(skh_slice(input), length, offsets, offset_count, seed, out, count);
    if (!hashed.is_error) return SKETCH_OK;
    *wrong_offset = (size_t)hashed.value;
    return SKETCH_ERROR_OFFSET;
}

/* Returns how many bytes the smallest filter has whose false positive rate is at most one in
 * `one_in`, within 2^-22 and by a Poisson model of its blocks, once it has `keys` keys: a power
 * of two, 32 bytes to 128 MiB. 0 if there is none. */
SKETCH_HASH_API size_t sketch_bloom_bytes_for(uint64_t keys, uint64_t one_in) {
    const struct skh_option option = skh_bloom_bytes_for(keys, one_in);
    if (option.is_some) return (size_t)option.value;
    return 0;
}

/* Returns 0 if a filter may have this length, or SKETCH_ERROR_LENGTH. */
SKETCH_HASH_API int sketch_bloom_check(size_t length) {
    if (skh_bloom_is_length(length)) return SKETCH_OK;
    return SKETCH_ERROR_LENGTH;
}

/* Inserts a key. Returns 0 or SKETCH_ERROR_LENGTH. */
SKH_INLINE int sketch_bloom_insert_any(bool has_vectors, void *bits, size_t length, const void *key,
                                       size_t key_length) {
    unsigned char *const filter = (unsigned char *)bits;
    const uint64_t hash = skh_xxh64_hash((const unsigned char *)key, key_length, 0);
    if (!skh_bloom_is_length(length)) return SKETCH_ERROR_LENGTH;
    skh_bloom_insert_into(has_vectors, filter, length, hash);
    return SKETCH_OK;
}

SKH_CHOOSE(SKETCH_HASH_API, int, return, sketch_bloom_insert,
           (void *bits, size_t length, const void *key, size_t key_length),
           (bits, length, key, key_length))

/* Returns 1 if the filter may contain the key, and 0 if it was certainly not inserted. Returns 1
 * too if no filter has this length: such bytes rule nothing out. */
SKH_INLINE int sketch_bloom_contains_any(bool has_vectors, const void *bits, size_t length,
                                         const void *key, size_t key_length) {
    const unsigned char *const filter = (const unsigned char *)bits;
    const uint64_t hash = skh_xxh64_hash((const unsigned char *)key, key_length, 0);
    if (skh_bloom_is_length(length)) return skh_bloom_is_in(has_vectors, filter, length, hash);
    return 1;
}

SKH_CHOOSE(SKETCH_HASH_API, int, return, sketch_bloom_contains,
           (const void *bits, size_t length, const void *key, size_t key_length),
           (bits, length, key, key_length))

/* Inserts the key with this XXH64 of the seed 0. Returns 0 or SKETCH_ERROR_LENGTH. */
SKH_INLINE int sketch_bloom_insert_hash_any(bool has_vectors, void *bits, size_t length,
                                            uint64_t hash) {
    unsigned char *const filter = (unsigned char *)bits;
    if (!skh_bloom_is_length(length)) return SKETCH_ERROR_LENGTH;
    skh_bloom_insert_into(has_vectors, filter, length, hash);
    return SKETCH_OK;
}

SKH_CHOOSE(SKETCH_HASH_API, int, return, sketch_bloom_insert_hash,
           (void *bits, size_t length, uint64_t hash), (bits, length, hash))

/* Returns what sketch_bloom_contains does for the key with this XXH64 of the seed 0. */
SKH_INLINE int sketch_bloom_contains_hash_any(bool has_vectors, const void *bits, size_t length,
                                              uint64_t hash) {
    const unsigned char *const filter = (const unsigned char *)bits;
    if (skh_bloom_is_length(length)) return skh_bloom_is_in(has_vectors, filter, length, hash);
    return 1;
}

SKH_CHOOSE(SKETCH_HASH_API, int, return, sketch_bloom_contains_hash,
           (const void *bits, size_t length, uint64_t hash), (bits, length, hash))

/* Inserts the offset_count - 1 keys of a column with offsets of 32 bits. Returns 0,
 * SKETCH_ERROR_LENGTH or SKETCH_ERROR_OFFSET. */
SKETCH_HASH_API int sketch_bloom_insert_each32(void *bits, size_t length, const void *keys,
                                               size_t keys_length, const uint32_t *offsets,
                                               size_t offset_count, size_t *wrong_offset) {
    unsigned char *const filter = (unsigned char *)bits;
    const unsigned char *const keys_bytes = skh_slice(keys);
    if (!skh_bloom_is_length(length)) return SKETCH_ERROR_LENGTH;
    const uint64_t count = skh_less64(offset_count, 1);
    const struct skh_result result = skh_check_offsets32(keys_length, offsets, offset_count, count);
    if (result.is_error) {
        *wrong_offset = (size_t)result.value;
        return SKETCH_ERROR_OFFSET;
    }
    uint64_t hashes[32] = {0};
    uint64_t start = 0;
    while (start < count) {
        const uint64_t run_count = skh_least64(32, count - start);
        skh_xxh64_hash_run32(keys_bytes, offsets, start, 0, hashes, run_count);
        skh_bloom_insert_hashes(filter, length, hashes, run_count);
        start += run_count;
    }
    return SKETCH_OK;
}

/* Inserts the offset_count - 1 keys of a column with offsets of 64 bits. Returns 0,
 * SKETCH_ERROR_LENGTH or SKETCH_ERROR_OFFSET. */
SKETCH_HASH_API int sketch_bloom_insert_each64(void *bits, size_t length, const void *keys,
                                               size_t keys_length, const uint64_t *offsets,
                                               size_t offset_count, size_t *wrong_offset) {
    unsigned char *const filter = (unsigned char *)bits;
    const unsigned char *const keys_bytes = skh_slice(keys);
    if (!skh_bloom_is_length(length)) return SKETCH_ERROR_LENGTH;
    const uint64_t count = skh_less64(offset_count, 1);
    const struct skh_result result = skh_check_offsets64(keys_length, offsets, offset_count, count);
    if (result.is_error) {
        *wrong_offset = (size_t)result.value;
        return SKETCH_ERROR_OFFSET;
    }
    uint64_t hashes[32] = {0};
    uint64_t start = 0;
    while (start < count) {
        const uint64_t run_count = skh_least64(32, count - start);
        skh_xxh64_hash_run64(keys_bytes, offsets, start, 0, hashes, run_count);
        skh_bloom_insert_hashes(filter, length, hashes, run_count);
        start += run_count;
    }
    return SKETCH_OK;
}

/* Inserts the four bytes of each value: Parquet's INT32 and FLOAT. Returns 0 or
 * SKETCH_ERROR_LENGTH. */
SKH_INLINE int sketch_bloom_insert_each_u32_any(bool has_vectors, void *bits, size_t length,
                                                const uint32_t *values, size_t count) {
    unsigned char *const filter = (unsigned char *)bits;
    if (!skh_bloom_is_length(length)) return SKETCH_ERROR_LENGTH;
    for (uint64_t i = 0; i < count; i++) {
        skh_bloom_insert_into(has_vectors, filter, length,
                              skh_xxh64_hash_u32(skh_get32(values + i), 0));
    }
    return SKETCH_OK;
}

SKH_CHOOSE(SKETCH_HASH_API, int, return, sketch_bloom_insert_each_u32,
           (void *bits, size_t length, const uint32_t *values, size_t count),
           (bits, length, values, count))

/* Inserts the eight bytes of each value: Parquet's INT64 and DOUBLE. Returns 0 or
 * SKETCH_ERROR_LENGTH. */
SKH_INLINE int sketch_bloom_insert_each_u64_any(bool has_vectors, void *bits, size_t length,
                                                const uint64_t *values, size_t count) {
    unsigned char *const filter = (unsigned char *)bits;
    if (!skh_bloom_is_length(length)) return SKETCH_ERROR_LENGTH;
    for (uint64_t i = 0; i < count; i++) {
        skh_bloom_insert_into(has_vectors, filter, length,
                              skh_xxh64_hash_u64(skh_get64(values + i), 0));
    }
    return SKETCH_OK;
}

SKH_CHOOSE(SKETCH_HASH_API, int, return, sketch_bloom_insert_each_u64,
           (void *bits, size_t length, const uint64_t *values, size_t count),
           (bits, length, values, count))

/* Inserts the keys with these XXH64 of the seed 0. Returns 0 or SKETCH_ERROR_LENGTH. */
SKETCH_HASH_API int sketch_bloom_insert_each_hash(void *bits, size_t length, const uint64_t *hashes,
                                                  size_t count) {
    unsigned char *const filter = (unsigned char *)bits;
    if (!skh_bloom_is_length(length)) return SKETCH_ERROR_LENGTH;
    skh_bloom_insert_hashes(filter, length, hashes, count);
    return SKETCH_OK;
}

/* Writes 1 or 0 to found[i], as sketch_bloom_contains returns it for key i of a column with
 * offsets of 32 bits, for each i below `count`. Returns 0, SKETCH_ERROR_LENGTH or
 * SKETCH_ERROR_OFFSET. */
SKETCH_HASH_API int sketch_bloom_contains_each32(const void *bits, size_t length, const void *keys,
                                                 size_t keys_length, const uint32_t *offsets,
                                                 size_t offset_count, unsigned char *found,
                                                 size_t count, size_t *wrong_offset) {
    const unsigned char *const filter = (const unsigned char *)bits;
    const unsigned char *const keys_bytes = skh_slice(keys);
    if (!skh_bloom_is_length(length)) return SKETCH_ERROR_LENGTH;
    const struct skh_result result = skh_check_offsets32(keys_length, offsets, offset_count, count);
    if (result.is_error) {
        *wrong_offset = (size_t)result.value;
        return SKETCH_ERROR_OFFSET;
    }
    uint64_t hashes[32] = {0};
    uint64_t start = 0;
    while (start < count) {
        const uint64_t run_count = skh_least64(32, (uint64_t)count - start);
        skh_xxh64_hash_run32(keys_bytes, offsets, start, 0, hashes, run_count);
        skh_bloom_find_hashes(filter, length, hashes, run_count, found, start);
        start += run_count;
    }
    return SKETCH_OK;
}

/* Writes 1 or 0 to found[i], as sketch_bloom_contains returns it for key i of a column with
 * offsets of 64 bits, for each i below `count`. Returns 0, SKETCH_ERROR_LENGTH or
 * SKETCH_ERROR_OFFSET. */
SKETCH_HASH_API int sketch_bloom_contains_each64(const void *bits, size_t length, const void *keys,
                                                 size_t keys_length, const uint64_t *offsets,
                                                 size_t offset_count, unsigned char *found,
                                                 size_t count, size_t *wrong_offset) {
    const unsigned char *const filter = (const unsigned char *)bits;
    const unsigned char *const keys_bytes = skh_slice(keys);
    if (!skh_bloom_is_length(length)) return SKETCH_ERROR_LENGTH;
    const struct skh_result result = skh_check_offsets64(keys_length, offsets, offset_count, count);
    if (result.is_error) {
        *wrong_offset = (size_t)result.value;
        return SKETCH_ERROR_OFFSET;
    }
    uint64_t hashes[32] = {0};
    uint64_t start = 0;
    while (start < count) {
        const uint64_t run_count = skh_least64(32, (uint64_t)count - start);
        skh_xxh64_hash_run64(keys_bytes, offsets, start, 0, hashes, run_count);
        skh_bloom_find_hashes(filter, length, hashes, run_count, found, start);
        start += run_count;
    }
    return SKETCH_OK;
}

/* Writes 1 or 0 to found[i] for the four bytes of values[i], for each i below `count`. Returns
 * 0, SKETCH_ERROR_LENGTH, or SKETCH_ERROR_COUNT if `value_count` is below `count`. */
SKH_INLINE int sketch_bloom_contains_each_u32_any(bool has_vectors, const void *bits, size_t length,
                                                  const uint32_t *values, size_t value_count,
                                                  unsigned char *found, size_t count) {
    const unsigned char *const filter = (const unsigned char *)bits;
    if (!skh_bloom_is_length(length)) return SKETCH_ERROR_LENGTH;
    if (value_count < count) return SKETCH_ERROR_COUNT;
    for (uint64_t i = 0; i < count; i++) {
        found[i] = (uint8_t)skh_bloom_is_in(has_vectors, filter, length,
                                            skh_xxh64_hash_u32(skh_get32(values + i), 0));
    }
    return SKETCH_OK;
}

SKH_CHOOSE(SKETCH_HASH_API, int, return, sketch_bloom_contains_each_u32,
           (const void *bits, size_t length, const uint32_t *values, size_t value_count,
            unsigned char *found, size_t count),
           (bits, length, values, value_count, found, count))

/* Writes 1 or 0 to found[i] for the eight bytes of values[i], for each i below `count`. Returns
 * 0, SKETCH_ERROR_LENGTH, or SKETCH_ERROR_COUNT if `value_count` is below `count`. */
SKH_INLINE int sketch_bloom_contains_each_u64_any(bool has_vectors, const void *bits, size_t length,
                                                  const uint64_t *values, size_t value_count,
                                                  unsigned char *found, size_t count) {
    const unsigned char *const filter = (const unsigned char *)bits;
    if (!skh_bloom_is_length(length)) return SKETCH_ERROR_LENGTH;
    if (value_count < count) return SKETCH_ERROR_COUNT;
    for (uint64_t i = 0; i < count; i++) {
        found[i] = (uint8_t)skh_bloom_is_in(has_vectors, filter, length,
                                            skh_xxh64_hash_u64(skh_get64(values + i), 0));
    }
    return SKETCH_OK;
}

SKH_CHOOSE(SKETCH_HASH_API, int, return, sketch_bloom_contains_each_u64,
           (const void *bits, size_t length, const uint64_t *values, size_t value_count,
            unsigned char *found, size_t count),
           (bits, length, values, value_count, found, count))

/* Writes 1 or 0 to found[i] for the key with the XXH64 hashes[i], for each i below `count`.
 * Returns 0, SKETCH_ERROR_LENGTH, or SKETCH_ERROR_COUNT if `hash_count` is below `count`. */
SKETCH_HASH_API int sketch_bloom_contains_each_hash(const void *bits, size_t length,
                                                    const uint64_t *hashes, size_t hash_count,
                                                    unsigned char *found, size_t count) {
    const unsigned char *const filter = (const unsigned char *)bits;
    if (!skh_bloom_is_length(length)) return SKETCH_ERROR_LENGTH;
    if (hash_count < count) return SKETCH_ERROR_COUNT;
    skh_bloom_find_hashes(filter, length, hashes, count, found, 0);
    return SKETCH_OK;
}

/* Merges the filter at `from` into the one at `into`, which then contains the keys of both.
 * Returns 0, or SKETCH_ERROR_LENGTH, also if the lengths are different. */
SKETCH_HASH_API int sketch_bloom_merge(void *into, size_t length, const void *from,
                                       size_t from_length) {
    unsigned char *const into_bytes = (unsigned char *)into;
    const unsigned char *const from_bytes = (const unsigned char *)from;
    if (!skh_bloom_is_length(length) || from_length != length) return SKETCH_ERROR_LENGTH;
    for (uint64_t i = 0; i < length; i++) {
        into_bytes[i] |= from_bytes[i];
    }
    return SKETCH_OK;
}

/* Folds a filter into its first half, which is then the filter of `length` / 2 bytes of the same
 * keys. So a filter can be created for all keys, and made smaller once it is known how many are
 * different. The second half is unchanged. Returns 0, or SKETCH_ERROR_LENGTH, also if `length`
 * is not a multiple of 64. */
SKETCH_HASH_API int sketch_bloom_fold(void *bits, size_t length) {
    unsigned char *const filter = (unsigned char *)bits;
    if (!skh_bloom_is_length(length) || (uint64_t)length % 64 != 0) return SKETCH_ERROR_LENGTH;
    skh_bloom_fold_blocks(filter, length);
    return SKETCH_OK;
}

/* Folds a filter as often as its false positive rate, by the bits that are set, stays at most
 * one in `one_in`. Returns the length of the folded filter, which is at `bits`. The bytes after
 * it, up to `length`, have no meaning: from then on a call with the old length misses keys.
 * Returns `length` if it folds nothing, as with a `one_in` of 0, and 0 if no filter has `length`
 * bytes. */
SKETCH_HASH_API size_t sketch_bloom_fold_to(void *bits, size_t length, uint64_t one_in) {
    unsigned char *const filter = (unsigned char *)bits;
    if (!skh_bloom_is_length(length)) return 0;
    uint64_t bytes = length;
    while (bytes % 64 == 0) {
        if (!skh_bloom_has_rate_folded(filter, bytes, one_in)) break;
        skh_bloom_fold_blocks(filter, bytes);
        bytes /= 2;
    }
    return (size_t)bytes;
}

/* Returns the offset of the block of an XXH64 `hash` in a filter of `length` bytes, or SIZE_MAX
 * if no filter has that length. The 32 bytes of the block are a filter that contains the hash
 * exactly if the filter does. So a look-up in a file reads 32 bytes of a filter. */
SKETCH_HASH_API size_t sketch_bloom_block_offset(size_t length, uint64_t hash) {
    if (skh_bloom_is_length(length)) return (size_t)skh_bloom_block_start(length, hash);
    return SIZE_MAX;
}

/* Writes to `header`, which has `room` bytes, the header that is before a filter of `bytes`
 * bytes in a Parquet file, and returns its length: 15 to 19. Returns 0, and writes nothing, if
 * `room` is too small, or `bytes` is 2^31 or more or no filter's length. The file's
 * bloom_filter_length is that of the header and the filter. */
SKETCH_HASH_API size_t sketch_bloom_header_write(uint64_t bytes, unsigned char *header,
                                                 size_t room) {
    const struct skh_option option = skh_bloom_write_header(bytes, header, room);
    if (option.is_some) return (size_t)option.value;
    return 0;
}

/* Reads the header of a split block filter with XXH64, uncompressed. Returns its length, or 0,
 * and writes nothing, if `input` does not begin with one. Writes the length of the filter after
 * it to *bytes. If that is more than is left of `input`, the file is truncated: do not use the
 * filter. */
SKETCH_HASH_API size_t sketch_bloom_header_read(const void *input, size_t length, uint64_t *bytes) {
    const unsigned char *const input_bytes = (const unsigned char *)input;
    const uint64_t bytes2 = skh_bloom_length_in(input_bytes, length);
    unsigned char header[19] = {0};
    const struct skh_option option = skh_bloom_write_header(bytes2, header, 19);
    if (!option.is_some || !skh_bloom_has_prefix(input_bytes, length, header, option.value))
        return 0;
    *bytes = bytes2;
    return (size_t)option.value;
}
