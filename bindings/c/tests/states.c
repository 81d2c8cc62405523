/* States: random streams in random cuts have the digests of one call, and they and random states
 * give the same results in each build of the library, whose sum is printed. Each state and each
 * input is a block, so that valgrind sees accesses outside of it. */
#include "helpers.h"
#include "sketch_hash.h"
#include <stdlib.h>
#include <string.h>

static uint64_t sum;

static void add(uint64_t word) { sum = (sum ^ word) * 0x9E3779B97F4A7C15ULL + (sum >> 29); }

static void stream(const unsigned char *bytes, size_t length, uint64_t seed) {
    sketch_xxh64_state_t x;
    sketch_murmur3_x64_128_state_t m;
    uint64_t pair[2], whole[2];
    unsigned char out[16];
    size_t at = 0;
    sketch_xxh64_reset(&x, seed);
    sketch_murmur3_x64_128_reset(&m, seed);
    do {
        const size_t most = random31() & 1 ? 15 : length;
        size_t n = 1 + random31() % (1 + most);
        if (n > length - at) n = length - at;
        sketch_xxh64_update(&x, bytes + at, n);
        sketch_xxh64_update(&x, NULL, 0);
        sketch_murmur3_x64_128_update(&m, bytes + at, n);
        sketch_murmur3_x64_128_update(&m, NULL, 0);
        at += n;
        sketch_murmur3_x64_128_digest(&m, pair);
        sketch_murmur3_x64_128(bytes, at, seed, whole);
        same("xxh64 so far", sketch_xxh64_digest(&x), sketch_xxh64(bytes, at, seed));
        same("murmur so far", memcmp(pair, whole, sizeof pair), 0);
    } while (at < length);
    add(sketch_xxh64_digest(&x));
    add(pair[0]);
    add(pair[1]);
    sketch_murmur3_x64_128_bytes(pair, out);
    add(sketch_xxh64(out, sizeof out, 0));
    add(sketch_xxh64_u64(seed, length));
    /* The whole states, but for bytes of the buffer that are not in use. */
    const uint64_t words[] = {x.seed, x.v1, x.v2, x.v3, x.v4, x.total, m.h1, m.h2, m.total};
    for (size_t i = 0; i < sizeof words / sizeof *words; i++) add(words[i]);
    add(sketch_xxh64(x.waiting, x.total % 32, 0));
    add(sketch_xxh64(m.waiting, m.total % 16, 0));
}

/* Every content of a state is safe. */
static void any_state(const unsigned char *bytes, size_t length) {
    sketch_xxh64_state_t *x = (sketch_xxh64_state_t *)malloc(sizeof *x);
    sketch_murmur3_x64_128_state_t *m = (sketch_murmur3_x64_128_state_t *)malloc(sizeof *m);
    uint64_t pair[2];
    uint64_t *words[] = {&x->seed,  &x->v1, &x->v2, &x->v3,   &x->v4,
                         &x->total, &m->h1, &m->h2, &m->total};
    for (size_t i = 0; i < sizeof words / sizeof *words; i++) *words[i] = random64();
    fill(x->waiting, sizeof x->waiting);
    fill(m->waiting, sizeof m->waiting);
    sketch_xxh64_update(x, bytes, length);
    sketch_murmur3_x64_128_update(m, bytes, length);
    sketch_murmur3_x64_128_digest(m, pair);
    add(sketch_xxh64_digest(x) ^ pair[0]);
    free(x);
    free(m);
}

int main(int count, char **args) {
    int rounds = count > 1 ? atoi(args[1]) : 100000;
    for (int round = 0; round < rounds; round++) {
        size_t length = random31() % (round % 8 ? 100 : 1024);
        unsigned char *bytes = (unsigned char *)malloc(length);
        fill(bytes, length);
        stream(bytes, length, random64());
        any_state(bytes, length);
        free(bytes);
    }
    printf("the sum of all results: %016" PRIx64 "\n", sum);
    return conclude();
}
