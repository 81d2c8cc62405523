/* Whether the compiler has the attributes of GNU C: gcc from version 5 on and clang tell. Others,
 * of which some only say that they are GNU C, get the plain way. */
#ifdef __has_attribute
#if __has_attribute(always_inline) && __has_attribute(noinline)
#define SKH_IS_GNU
#endif
#if defined __GNUC__ && defined __x86_64__ && !defined __AVX2__ && __has_attribute(target)
#define SKH_FINDS_AVX2
#include <cpuid.h> /* before all others: a macro of dietlibc's is a name in it */
#endif
#endif

#include "sketch_hash.h"
#include <limits.h>
#include <stdbool.h>
#ifdef __wasm__ /* where each of these is an instruction, and no C library is needed */
#define memcpy __builtin_memcpy
#define memmove __builtin_memmove
#define memset __builtin_memset
#else
#include <string.h>
#endif

#if CHAR_BIT != 8
#error "sketch_hash needs bytes of 8 bits"
#endif

/* SKH_REQUIRES says what all callers ensure: without it keys of 32 to 63 bytes take 1.1 to 1.2
 * times as long with gcc. SKH_LIKELY and SKH_UNLIKELY say what mostly holds: without them columns
 * of short keys take 1.1 to 1.4 times as long, and Murmur's updates by 1 to 3 bytes 1.1 to 1.3. */
#ifdef SKH_IS_GNU
#define SKH_NOINLINE __attribute__((noinline))
#define SKH_INLINE static inline __attribute__((always_inline))
#define SKH_REQUIRES(condition) ((condition) ? (void)0 : __builtin_unreachable())
#define SKH_LIKELY(condition) (__builtin_expect(condition, 1))
#define SKH_UNLIKELY(condition) (__builtin_expect(condition, 0))
#else
#define SKH_NOINLINE
#define SKH_INLINE static inline
#define SKH_REQUIRES(condition) ((void)0)
#define SKH_LIKELY(condition) (condition)
#define SKH_UNLIKELY(condition) (condition)
#endif

/* A function of which there is a second one for processors with AVX2, where the compiler can make
 * it and the program was not compiled for these processors alone. Before the constructor has run,
 * the first one is called. */
#ifdef SKH_FINDS_AVX2
static bool skh_has_avx2;
__attribute__((constructor)) static void skh_find_avx2(void) {
    unsigned a, b, c, d;
    if (!__get_cpuid(1, &a, &b, &c, &d) || (c & bit_OSXSAVE) == 0) return;
    __asm__ volatile("xgetbv"
                     : "=a"(a), "=d"(d)
                     : "c"(0)); /* whether the system saves the registers */
    if ((a & 6) != 6 || !__get_cpuid_count(7, 0, &a, &b, &c, &d)) return;
    skh_has_avx2 = (b & bit_AVX2) != 0;
}
#define SKH_GIVEN(...) __VA_ARGS__
#define SKH_CHOOSE(STORAGE, TYPE, GIVE, NAME, PARAMETERS, ARGUMENTS)                               \
    __attribute__((target("avx2"))) static TYPE NAME##_avx2 PARAMETERS {                           \
        GIVE NAME##_any(true, SKH_GIVEN ARGUMENTS);                                                \
    }                                                                                              \
    STORAGE TYPE NAME PARAMETERS {                                                                 \
        if (skh_has_avx2)                                                                          \
            GIVE NAME##_avx2 ARGUMENTS;                                                            \
        else                                                                                       \
            GIVE NAME##_any(false, SKH_GIVEN ARGUMENTS);                                           \
    }
#else
#define SKH_GIVEN(...) __VA_ARGS__
#define SKH_CHOOSE(STORAGE, TYPE, GIVE, NAME, PARAMETERS, ARGUMENTS)                               \
    STORAGE TYPE NAME PARAMETERS { GIVE NAME##_any(true, SKH_GIVEN ARGUMENTS); }
#endif

/* A caller may give NULL for no bytes. C allows no offset from it, so where one is computed it is
 * replaced by the address of a byte, at which nothing is read. */
static const unsigned char skh_nothing = 0;
SKH_INLINE const unsigned char *skh_slice(const void *at) {
    return at == NULL ? &skh_nothing : (const unsigned char *)at;
}

/* A number of an array, in the machine's byte order. The array may have another type, such as
 * double, and need not be aligned. */
SKH_INLINE uint32_t skh_get32(const void *at) {
    uint32_t number;
    memcpy(&number, at, sizeof number);
    return number;
}
SKH_INLINE uint64_t skh_get64(const void *at) {
    uint64_t number;
    memcpy(&number, at, sizeof number);
    return number;
}
SKH_INLINE void skh_set64(void *at, uint64_t number) { memcpy(at, &number, sizeof number); }

/* A number of bytes, the lowest first on every processor. */
#if defined _WIN32 || defined __BYTE_ORDER__ && __BYTE_ORDER__ == __ORDER_LITTLE_ENDIAN__
SKH_INLINE uint16_t skh_load16(const unsigned char *at) {
    uint16_t number;
    memcpy(&number, at, sizeof number);
    return number;
}
SKH_INLINE uint32_t skh_load32(const unsigned char *at) { return skh_get32(at); }
SKH_INLINE uint64_t skh_load64(const unsigned char *at) { return skh_get64(at); }
SKH_INLINE void skh_store16(unsigned char *at, uint16_t number) {
    memcpy(at, &number, sizeof number);
}
SKH_INLINE void skh_store32(unsigned char *at, uint32_t number) {
    memcpy(at, &number, sizeof number);
}
SKH_INLINE void skh_store64(unsigned char *at, uint64_t number) { skh_set64(at, number); }
#else
SKH_INLINE uint16_t skh_load16(const unsigned char *at) { return (uint16_t)(at[0] | at[1] << 8); }
SKH_INLINE uint32_t skh_load32(const unsigned char *at) {
    return skh_load16(at) | (uint32_t)skh_load16(at + 2) << 16;
}
SKH_INLINE uint64_t skh_load64(const unsigned char *at) {
    return skh_load32(at) | (uint64_t)skh_load32(at + 4) << 32;
}
SKH_INLINE void skh_store16(unsigned char *at, uint16_t number) {
    at[0] = (unsigned char)number;
    at[1] = (unsigned char)(number >> 8);
}
SKH_INLINE void skh_store32(unsigned char *at, uint32_t number) {
    skh_store16(at, (uint16_t)number);
    skh_store16(at + 2, (uint16_t)(number >> 16));
}
SKH_INLINE void skh_store64(unsigned char *at, uint64_t number) {
    skh_store32(at, (uint32_t)number);
    skh_store32(at + 4, (uint32_t)(number >> 32));
}
#endif

/* By its builtin, since clang makes a second product of x * y << n if it sees the shift. */
#if defined __clang__
SKH_INLINE uint64_t skh_rotate64(uint64_t x, uint64_t n) { return __builtin_rotateleft64(x, n); }
#else
SKH_INLINE uint64_t skh_rotate64(uint64_t x, uint64_t n) { return x << n | x >> (64 - n); }
#endif
/* Bit n. Without AVX2 gcc makes no vector of shifts, and a look-up takes two thirds of the time of
 * a shift. */
SKH_INLINE uint32_t skh_bit(bool has_vectors, uint32_t n) {
#ifndef __clang__
    static const uint32_t bits[32] = {
        1u << 0,  1u << 1,  1u << 2,  1u << 3,  1u << 4,  1u << 5,  1u << 6,  1u << 7,
        1u << 8,  1u << 9,  1u << 10, 1u << 11, 1u << 12, 1u << 13, 1u << 14, 1u << 15,
        1u << 16, 1u << 17, 1u << 18, 1u << 19, 1u << 20, 1u << 21, 1u << 22, 1u << 23,
        1u << 24, 1u << 25, 1u << 26, 1u << 27, 1u << 28, 1u << 29, 1u << 30, 1u << 31};
    if (!has_vectors) return bits[n];
#endif
    (void)has_vectors;
    return (uint32_t)1 << n;
}

/* Whether any bit is set. gcc makes a vector only of the array, and clang only of the sum. */
SKH_INLINE bool skh_any(bool has_vectors, uint32_t a, uint32_t b, uint32_t c, uint32_t d,
                        uint32_t e, uint32_t f, uint32_t g, uint32_t h) {
#ifndef __clang__
    if (has_vectors) {
        const uint32_t words[8] = {a, b, c, d, e, f, g, h};
        uint64_t pairs[4];
        memcpy(pairs, words, sizeof pairs);
        return (pairs[0] | pairs[1] | pairs[2] | pairs[3]) != 0;
    }
#endif
    (void)has_vectors;
    return (a | b | c | d | e | f | g | h) != 0;
}

SKH_INLINE uint64_t skh_least64(uint64_t x, uint64_t y) { return x < y ? x : y; }
/* x - y, but not below 0. */
SKH_INLINE uint64_t skh_less64(uint64_t x, uint64_t y) { return x > y ? x - y : 0; }

/* How many bits are set. */
SKH_INLINE uint32_t skh_ones32(uint32_t x) {
    x -= x >> 1 & 0x55555555u;
    x = (x & 0x33333333u) + (x >> 2 & 0x33333333u);
    return ((x + (x >> 4)) & 0x0f0f0f0fu) * 0x01010101u >> 24;
}

/* Numbers of 128 bits. In WebAssembly the compiler's own need functions that a module lacks. */
#if defined __SIZEOF_INT128__ && !defined __wasm__
__extension__ typedef unsigned __int128 skh_uint128;
SKH_INLINE skh_uint128 skh_wide(uint64_t high, uint64_t low) {
    return (skh_uint128)high << 64 | low;
}
SKH_INLINE uint64_t skh_wide_low(skh_uint128 x) { return (uint64_t)x; }
SKH_INLINE uint64_t skh_wide_high(skh_uint128 x) { return (uint64_t)(x >> 64); }
SKH_INLINE skh_uint128 skh_wide_left(skh_uint128 x, uint64_t n) { return x << n; }
SKH_INLINE skh_uint128 skh_wide_right(skh_uint128 x, uint64_t n) { return x >> n; }
SKH_INLINE skh_uint128 skh_wide_low_bits(skh_uint128 x, uint64_t n) {
    return x & ~(~(skh_uint128)0 << n);
}
SKH_INLINE skh_uint128 skh_wide_add(skh_uint128 x, skh_uint128 y) { return x + y; }
SKH_INLINE skh_uint128 skh_wide_mul(skh_uint128 x, skh_uint128 y) { return x * y; }
SKH_INLINE bool skh_wide_above(skh_uint128 x, skh_uint128 y) { return x > y; }
#else
typedef struct {
    uint64_t high, low;
} skh_uint128;
SKH_INLINE skh_uint128 skh_wide(uint64_t high, uint64_t low) {
    skh_uint128 x = {high, low};
    return x;
}
SKH_INLINE uint64_t skh_wide_low(skh_uint128 x) { return x.low; }
SKH_INLINE uint64_t skh_wide_high(skh_uint128 x) { return x.high; }
SKH_INLINE skh_uint128 skh_wide_left(skh_uint128 x, uint64_t n) {
    if (n == 0) return x;
    return n < 64 ? skh_wide(x.high << n | x.low >> (64 - n), x.low << n)
                  : skh_wide(x.low << (n - 64), 0);
}
SKH_INLINE skh_uint128 skh_wide_right(skh_uint128 x, uint64_t n) {
    if (n == 0) return x;
    return n < 64 ? skh_wide(x.high >> n, x.low >> n | x.high << (64 - n))
                  : skh_wide(0, x.high >> (n - 64));
}
SKH_INLINE skh_uint128 skh_wide_low_bits(skh_uint128 x, uint64_t n) {
    const skh_uint128 above = skh_wide_left(skh_wide(UINT64_MAX, UINT64_MAX), n);
    return skh_wide(x.high & ~above.high, x.low & ~above.low);
}
SKH_INLINE skh_uint128 skh_wide_add(skh_uint128 x, skh_uint128 y) {
    uint64_t low = x.low + y.low;
    return skh_wide(x.high + y.high + (low < x.low), low);
}
SKH_INLINE skh_uint128 skh_wide_mul(skh_uint128 x, skh_uint128 y) {
    uint64_t a = x.low >> 32, b = x.low & 0xffffffffu, c = y.low >> 32, d = y.low & 0xffffffffu;
    uint64_t middle = (b * d >> 32) + (a * d & 0xffffffffu) + b * c;
    return skh_wide(x.high * y.low + x.low * y.high + a * c + (a * d >> 32) + (middle >> 32),
                    x.low * y.low);
}
SKH_INLINE bool skh_wide_above(skh_uint128 x, skh_uint128 y) {
    return x.high != y.high ? x.high > y.high : x.low > y.low;
}
#endif

/* What a function returns that gives two numbers, a number or none, and a number or an error. */
struct skh_pair {
    uint64_t first, second;
};
struct skh_option {
    bool is_some;
    uint64_t value;
};
struct skh_result {
    bool is_error;
    uint64_t value;
};
SKH_INLINE struct skh_pair skh_pair_of(uint64_t first, uint64_t second) {
    const struct skh_pair pair = {first, second};
    return pair;
}
SKH_INLINE struct skh_option skh_some(uint64_t value) {
    const struct skh_option option = {true, value};
    return option;
}
SKH_INLINE struct skh_option skh_none(void) {
    const struct skh_option option = {false, 0};
    return option;
}
SKH_INLINE struct skh_result skh_result_of(bool is_error, uint64_t value) {
    const struct skh_result result = {is_error, value};
    return result;
}
SKH_INLINE struct skh_result skh_ok(uint64_t value) { return skh_result_of(false, value); }
SKH_INLINE struct skh_result skh_error(uint64_t value) { return skh_result_of(true, value); }
