/* The C calls compared with xxHash, inlined or called, and with Debian's libmurmurhash, a C port of the reference. With
 * SKETCH_HASH_INLINE their text is here, so that they can be inlined too. C and COLUMN name the groups of the lines. */
#define XXH_INLINE_ALL
#ifdef SKETCH_HASH_INLINE
#include "../dist/sketch_hash.c"
#else
#include "../dist/include/sketch_hash.h"
#endif
#include "measure.h"
#include <murmurhash.h>
#include <xxhash.h>

XXH64_hash_t called_xxh64(const void *bytes, size_t length, XXH64_hash_t seed); /* made by `run` */

/* The first word of Murmur, which a call writes. */
#define FIRST_WORD(NAME, CALL)                                                                     \
    static uint64_t NAME(const void *bytes, size_t length, uint64_t seed) {                        \
        uint64_t hash[2];                                                                          \
        CALL(bytes, length, seed, hash);                                                           \
        return hash[0];                                                                            \
    }
FIRST_WORD(murmur, sketch_murmur3_x64_128)
FIRST_WORD(reference, lmmh_x64_128)

enum { STREAM = 1 << 16, MIXED = 200000 }; /* bytes; keys of a column with mixed lengths */
static unsigned char input[1 << 24];
/* A column of so many keys, and the hash of each. */
static uint64_t offsets[MIXED + 1], numbers[KEYS], hashes[MIXED];
static size_t count;

/* The text of a format and its arguments. The next name takes its place. */
static char name[64];
#define NAME(...) (snprintf(name, sizeof name, __VA_ARGS__), name)

/* Inlines all calls that can be inlined, however often they appear here. */
#define FLAT __attribute__((flatten)) static uint64_t

/* Keys one after the other: of `length` bytes, or those of the column if that is 0. */
#define KEYS_BY(NAME, CALL)                                                                        \
    FLAT NAME(size_t total, size_t length) {                                                       \
        uint64_t all = 0;                                                                          \
        if (length == 0)                                                                           \
            for (size_t i = 0; i < count; i++)                                                     \
                all ^= CALL(input + offsets[i], offsets[i + 1] - offsets[i], 7);                   \
        else                                                                                       \
            for (size_t at = 0; at + length <= total; at += length)                                \
                all ^= CALL(input + at, length, 7);                                                \
        return all;                                                                                \
    }
KEYS_BY(ours_xxh64, sketch_xxh64)
KEYS_BY(inlined_xxh64, XXH64)
KEYS_BY(their_xxh64, called_xxh64)
KEYS_BY(ours_murmur, murmur)
KEYS_BY(their_murmur, reference)

/* Writes of `length` bytes to one state. */
#define WRITES_BY(HEAD, HASH)                                                                      \
    HEAD(size_t total, size_t length) {                                                            \
        HASH##_state_t state;                                                                      \
        HASH##_reset(&state, 7);                                                                   \
        for (size_t at = 0; at + length <= total; at += length)                                    \
            HASH##_update(&state, input + at, length);                                             \
        return HASH##_digest(&state);                                                              \
    }
WRITES_BY(static uint64_t ours_stream, sketch_xxh64)
WRITES_BY(FLAT their_stream, XXH64)

static uint64_t ours_column(size_t total, size_t length) {
    size_t wrong;
    sketch_xxh64_each64(input, total, offsets, count + 1, 7, hashes, count, &wrong);
    return hashes[count - 1];
}

static uint64_t ours_numbers(size_t total, size_t length) {
    sketch_xxh64_each_u64(numbers, KEYS, 7, hashes, KEYS);
    return hashes[KEYS - 1];
}

/* The hash of each of so many keys, by calls in a loop. */
#define EACH_BY(NAME, COUNT, CALL)                                                                 \
    FLAT NAME(size_t total, size_t length) {                                                       \
        for (size_t i = 0; i < COUNT; i++) hashes[i] = CALL;                                       \
        return hashes[COUNT - 1];                                                                  \
    }
EACH_BY(their_column, count, XXH64(input + offsets[i], offsets[i + 1] - offsets[i], 7))
EACH_BY(their_numbers, KEYS, XXH64(&numbers[i], sizeof *numbers, 7))

static void keys(const char *name, size_t total, size_t length) {
    const size_t items = length ? total / length : count;
    compare(C, name, "XXH64, inlined", ours_xxh64, inlined_xxh64, total, length, items);
    compare(C, name, "XXH64, called", ours_xxh64, their_xxh64, total, length, items);
    compare(C, name, "reference Murmur, called", ours_murmur, their_murmur, total, length, items);
}

/* Keys of `least` to `most` bytes, as a column, and if their lengths are mixed one by one. */
static void column(unsigned least, unsigned most) {
    count = least == most ? KEYS : MIXED;
    set_offsets(offsets, count, least, most);
    least == most ? NAME("keys of %u bytes", least) : NAME("keys of %u to %u bytes", least, most);
    compare(COLUMN, name, "XXH64 in a loop, inlined", ours_column, their_column, offsets[count], 0,
            count);
    if (least != most) keys(name, offsets[count], 0);
}

int main(void) {
    static const size_t writes[] = {1, 7, 13, 100, 4096, 0};
    static const size_t lengths[] = {1, 2, 3, 4, 5, 6, 7, 8, 12, 16, 24, 31, 32, 48, 64, 100, 0};
    static const unsigned columns[][2] = {{1, 8}, {1, 16},  {1, 32},  {1, 64},  {32, 64},
                                          {8, 8}, {16, 16}, {31, 31}, {64, 64}, {0}};
    for (size_t i = 0; i < sizeof input; i++) input[i] = (unsigned char)(i * 2654435761u >> 24);
    for (const size_t *n = lengths; *n; n++)
        keys(NAME("keys of %zu byte%s", *n, *n == 1 ? "" : "s"), KEYS * *n, *n);
    for (const size_t *n = writes; *n; n++)
        compare(C, NAME("writes of %zu byte%s", *n, *n == 1 ? "" : "s"), "XXH64_update, inlined",
                ours_stream, their_stream, STREAM, *n, STREAM / *n);
    for (size_t i = 0; columns[i][0]; i++) column(columns[i][0], columns[i][1]);
    for (size_t i = 0; i < KEYS; i++) numbers[i] = i * 0x9e3779b97f4a7c15;
    compare(COLUMN, "numbers of 64 bits", "XXH64 in a loop, inlined", ours_numbers, their_numbers,
            0, 0, KEYS);
    keys("64 KiB at once", 1 << 16, 1 << 16);
    keys("1 MiB at once", 1 << 20, 1 << 20);
    return 0;
}
