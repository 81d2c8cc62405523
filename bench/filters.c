/* The Bloom filter compared with the same in plain C, with AVX2 in C, and with libbloom, in cache and in memory. */
#define XXH_INLINE_ALL
#include "../dist/include/sketch_hash.h"
#include "measure.h"
#include <bloom.h>
#include <immintrin.h>
#include <string.h>
#include <xxhash.h>

static const uint32_t salt[8] = {0x47b6137b, 0x44974d91, 0x8824ad5b, 0xa2b7289d,
                                 0x705495c7, 0x2df1424b, 0x9efc4947, 0x5c6bfb31};

/* the filters' length, the keys in them, the first key of the next call, a wrong offset */
static size_t bytes, keys, at, wrong;
static unsigned char *ours, *theirs, *data, answers[KEYS];
static uint64_t *given, *offsets;
static struct bloom libbloom;

__attribute__((noinline)) static void plain_insert(uint64_t hash) {
    uint32_t *block = (uint32_t *)theirs + ((hash >> 32) * (bytes / 32) >> 32) * 8;
    for (int w = 0; w < 8; w++) block[w] |= 1u << ((uint32_t)hash * salt[w] >> 27);
}

__attribute__((noinline)) static int plain_contains(uint64_t hash) {
    const uint32_t *block = (const uint32_t *)theirs + ((hash >> 32) * (bytes / 32) >> 32) * 8;
    uint32_t missing = 0;
    for (int w = 0; w < 8; w++) missing |= 1u << ((uint32_t)hash * salt[w] >> 27) & ~block[w];
    return missing == 0;
}

/* As Arrow does it on a processor that has AVX2. */
__attribute__((target("avx2"))) static inline __m256i avx2_mask(uint64_t hash) {
    const __m256i salts = _mm256_loadu_si256((const __m256i *)salt);
    const __m256i products = _mm256_mullo_epi32(_mm256_set1_epi32((int)hash), salts);
    return _mm256_sllv_epi32(_mm256_set1_epi32(1), _mm256_srli_epi32(products, 27));
}

__attribute__((noinline, target("avx2"))) static void avx2_insert(uint64_t hash) {
    __m256i *block = (__m256i *)theirs + ((hash >> 32) * (bytes / 32) >> 32);
    _mm256_storeu_si256(block, _mm256_or_si256(_mm256_loadu_si256(block), avx2_mask(hash)));
}

__attribute__((noinline, target("avx2"))) static int avx2_contains(uint64_t hash) {
    const __m256i *block = (const __m256i *)theirs + ((hash >> 32) * (bytes / 32) >> 32);
    return _mm256_testc_si256(_mm256_loadu_si256(block), avx2_mask(hash));
}

/* The calls of a peer for a key, which it hashes. */
#define KEY_CALLS(PEER)                                                                            \
    __attribute__((noipa)) static void PEER##_insert_key(const void *key, size_t length) {         \
        PEER##_insert(XXH64(key, length, 0));                                                      \
    }                                                                                              \
    __attribute__((noipa)) static int PEER##_contains_key(const void *key, size_t length) {        \
        return PEER##_contains(XXH64(key, length, 0));                                             \
    }
KEY_CALLS(plain)
KEY_CALLS(avx2)

/* The bytes of a key, and how many there are. */
#define KEY(i) data + offsets[i], (int)(offsets[(i) + 1] - offsets[i])

/* A function for `compare`: the calls for KEYS keys of the inserted ones (`length` 0) or the others. */
#define WORK(NAME, CALLS)                                                                          \
    static uint64_t NAME(size_t total, size_t length) {                                            \
        uint64_t found = 0;                                                                        \
        const size_t first = (at += total) % (keys - KEYS) + length * keys;                        \
        CALLS;                                                                                     \
        return found * (length == 0);                                                              \
    }
/* Two of them: to insert, and to look up. */
#define WORKS(NAME, INSERT, CONTAINS)                                                              \
    WORK(insert_##NAME, INSERT)                                                                    \
    WORK(contains_##NAME, CONTAINS)                                                                \
    static work *const NAME[] = {insert_##NAME, contains_##NAME};
/* Calls for a key, of which that to insert returns 0. */
#define EACH(CALL)                                                                                 \
    for (size_t i = first; i < first + KEYS; i++) found += CALL
#define PAIR(NAME, INSERT, CONTAINS) WORKS(NAME, EACH((INSERT) + 1), EACH(CONTAINS))
PAIR(our_hash, sketch_bloom_insert_hash(ours, bytes, given[i]),
     sketch_bloom_contains_hash(ours, bytes, given[i]))
PAIR(plain_hash, (plain_insert(given[i]), 0), plain_contains(given[i]))
PAIR(avx2_hash, (avx2_insert(given[i]), 0), avx2_contains(given[i]))
PAIR(our_key, sketch_bloom_insert(ours, bytes, KEY(i)), sketch_bloom_contains(ours, bytes, KEY(i)))
PAIR(plain_key, (plain_insert_key(KEY(i)), 0), plain_contains_key(KEY(i)))
PAIR(avx2_key, (avx2_insert_key(KEY(i)), 0), avx2_contains_key(KEY(i)))
PAIR(libbloom_key, (bloom_add(&libbloom, KEY(i)), 0), (bloom_check(&libbloom, KEY(i)) != 0))
/* A column in place of them. */
#define COLUMN ours, bytes, data, offsets[first + KEYS], offsets + first, KEYS + 1
WORKS(our_column, found = sketch_bloom_insert_each64(COLUMN, &wrong) + KEYS,
      sketch_bloom_contains_each64(COLUMN, answers, KEYS, &wrong);
      EACH(answers[i - first]))

/* The calls with a hash, with a key, and on a column or in place of that: ours, and those of the peers. */
static work *const *const our_calls[] = {our_hash, our_key, our_column};
static const struct {
    const char *name;
    work *const *calls[3];
} peers[] = {{"plain C", {plain_hash, plain_key, plain_key}},
             {"AVX2 in C", {avx2_hash, avx2_key, avx2_key}},
             {"libbloom", {NULL, libbloom_key, NULL}}};

/* A filter in memory that is new, since where its pages are changes what a call takes. */
static unsigned char *renewed(unsigned char *filter) {
    unsigned char *copy = malloc(bytes);
    if (!copy) exit(1);
    memcpy(copy, filter, bytes);
    free(filter);
    return copy;
}

static void rows(const char *where, int is_mixed) {
    static const char *const actions[] = {"insert", "found", "absent"};
    static const char *const kinds[][3] = {{"hash given", "16 bytes", "a column"},
                                           {NULL, "8 to 24 bytes", "a column, mixed"}};
    char name[64];
    for (int a = 0; a < 3; a++)
        for (size_t i = 0; i < sizeof peers / sizeof *peers; i++)
            for (int kind = is_mixed; kind < 3; kind++) {
                const char *peer = peers[i].name;
                work *const *calls = peers[i].calls[kind];
                if (!calls || (!__builtin_cpu_supports("avx2") && !strcmp(peer, "AVX2 in C")))
                    continue;
                snprintf(name, sizeof name, "%s, %s, %s", actions[a], kinds[is_mixed][kind], where);
                ours = renewed(ours), theirs = renewed(theirs);
                compare("filter", name, peer, our_calls[kind][a > 0], calls[a > 0], 104729 * KEYS,
                        a == 2, KEYS);
            }
}

/* With keys of `least` to `most` bytes, of which the first eight are different. */
static void filter(const char *where, size_t length, size_t count, unsigned least, unsigned most) {
    bytes = length, keys = count;
    ours = calloc(1, bytes), theirs = calloc(1, bytes), data = calloc(2 * keys + 1, most);
    given = malloc(2 * keys * 8), offsets = calloc(2 * keys + 1, 8);
    if (!ours || !theirs || !data || !given || !offsets || bloom_init(&libbloom, (int)keys, 0.01))
        exit(1);
    set_offsets(offsets, 2 * keys, least, most);
    for (size_t i = 0; i < 2 * keys; i++) {
        uint64_t words[2] = {i * 0x9e3779b97f4a7c15, i ^ i << 32};
        memcpy(data + offsets[i], words, sizeof words);
        given[i] = XXH64(KEY(i), 0);
        if (i >= keys) continue;
        sketch_bloom_insert(ours, bytes, KEY(i));
        plain_insert(given[i]);
        bloom_add(&libbloom, KEY(i));
    }
    if (memcmp(ours, theirs, bytes)) exit(1);
    rows(where, least != most);
    free(ours), free(theirs), free(data), free(given), free(offsets);
    bloom_free(&libbloom);
}

int main(void) {
    filter("1 MiB", 1 << 20, 800000, 16, 16);
    filter("1 MiB", 1 << 20, 800000, 8, 24);
    filter("128 MiB", 1 << 27, 32000000, 16, 16);
    return 0;
}
