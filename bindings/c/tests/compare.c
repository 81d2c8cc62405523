/* The library compared with libxxhash and libmurmurhash, over lengths, seeds and pieces. Each buffer
 * is a block, so that valgrind sees accesses outside of it. With an argument: on inputs longer than
 * 2^32 bytes. */
#include "sketch_hash.h"
#include <murmurhash.h>
#include <stdlib.h>
#include <string.h>
#include <xxhash.h>
#include "helpers.h"

/* Compares streams in pieces of `step` bytes. Murmur's seed has 32 bits, as its peer takes it. */
static void in_pieces(const unsigned char *bytes, size_t length, uint64_t seed, size_t step,
                      uint64_t xxh64, const uint64_t murmur[2]) {
    sketch_xxh64_state_t x = SKETCH_XXH64_INIT(seed);
    sketch_murmur3_x64_128_state_t m = SKETCH_MURMUR3_X64_128_INIT((uint32_t)seed);
    uint64_t pair[2];
    for (size_t n, at = 0; at < length; at += n) {
        n = length - at < step ? length - at : step;
        sketch_xxh64_update(&x, bytes + at, n);
        sketch_murmur3_x64_128_update(&m, bytes + at, n);
    }
    sketch_murmur3_x64_128_digest(&m, pair);
    same("xxh64 in pieces", sketch_xxh64_digest(&x), xxh64);
    same("murmur in pieces", memcmp(pair, murmur, 16), 0);
}

static void compare(const unsigned char *bytes, size_t length, uint64_t seed) {
    static const size_t steps[] = {1, 15, 16, 17, 31, 32, 33, 64};
    const uint64_t expected = XXH64(bytes, length, seed);
    uint64_t peer[2], pair[2];
    unsigned char out[16];
    same("xxh64 in one call", sketch_xxh64(bytes, length, seed), expected);
    lmmh_x64_128(bytes, (unsigned)length, (uint32_t)seed, peer);
    sketch_murmur3_x64_128(bytes, length, (uint32_t)seed, pair);
    same("murmur in one call", memcmp(pair, peer, 16), 0);
    for (size_t s = 0; s < sizeof steps / sizeof *steps; s++)
        in_pieces(bytes, length, seed, steps[s], expected, peer);
    sketch_murmur3_x64_128_bytes(pair, out);
    same("murmur in memory order", memcmp(out, peer, 16), 0);
    if (length == 8) {
        uint64_t value;
        memcpy(&value, bytes, 8);
        same("xxh64 of a number", sketch_xxh64_u64(value, seed), XXH64(bytes, 8, seed));
    }
}

static void short_inputs(void) {
    static const uint64_t seeds[] = {0, 9001, UINT64_MAX};
    for (size_t length = 0; length <= 200; length++)
        for (size_t s = 0; s < 3; s++) {
            unsigned char *bytes = length ? malloc(length) : NULL;
            for (size_t i = 0; i < length; i++) bytes[i] = (unsigned char)(i * 167 + length);
            compare(bytes, length, seeds[s]);
            free(bytes);
        }
}

/* XXH64 compared with libxxhash, Murmur in two updates with one call, a column whose second key
 * begins after 2^32, and a key of a filter. The zeros take no memory: they are never written. */
static void inputs_past_32_bits(void) {
    size_t length = ((size_t)1 << 32) + 37;
    unsigned char *zeros = calloc(length, 1);
    uint64_t expected = XXH64(zeros, length, UINT64_MAX), out[2];
    same("xxh64 in one call", sketch_xxh64(zeros, length, UINT64_MAX), expected);
    sketch_murmur3_x64_128(zeros, length, UINT32_MAX, out);
    in_pieces(zeros, length, UINT64_MAX, length - 37, expected, out);
    const uint64_t offsets[] = {0, length - 5, length};
    size_t wrong = 7;
    same("a column", sketch_xxh64_each64(zeros, length, offsets, 3, UINT64_MAX, out, 2, &wrong), 0);
    same("its first key", out[0], XXH64(zeros, length - 5, UINT64_MAX));
    same("its second key", out[1], XXH64(zeros, 5, UINT64_MAX));
    same("bytes that end before 2^32",
         sketch_xxh64_each64(zeros, 37, offsets, 3, UINT64_MAX, out, 2, &wrong),
         SKETCH_ERROR_OFFSET);
    same("the wrong offset", wrong, 1);
    unsigned char bits[32] = {0};
    sketch_bloom_insert(bits, 32, zeros, length);
    same("a long key of a filter", sketch_bloom_contains_hash(bits, 32, XXH64(zeros, length, 0)),
         1);
    free(zeros);
}

int main(int count, char **args) {
    (void)args;
    count > 1 ? inputs_past_32_bits() : short_inputs();
    return conclude();
}
