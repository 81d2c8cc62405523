/* The header alone, under each standard of C and C++: it may be included twice, and
 * inside extern "C", and its initializers are constants that equal a reset, also in a
 * class with names of its own. The header for programs that use xxHash compiles too. */
#ifdef __cplusplus
extern "C" {
#include "sketch_hash.h"
}
#endif
#include "sketch_hash.h"
#include "sketch_hash.h"

#pragma GCC diagnostic push
#ifdef __cplusplus
#pragma GCC diagnostic ignored "-Wold-style-cast" /* xxhash.h is C */
#endif
#include <xxhash.h>
#pragma GCC diagnostic pop

#include <string.h>
#define SEVEN                                                                                      \
    (0x80000000u + 0x80000007u) /* 7 in 32 bits: the initializers must not widen it first */

static const sketch_xxh64_state_t constant_x = SKETCH_XXH64_INIT(SEVEN);
static const sketch_murmur3_x64_128_state_t constant_m = SKETCH_MURMUR3_X64_128_INIT(SEVEN);

#ifdef __cplusplus
struct own {
    struct sketch_hash {};
    typedef unsigned char uint64_t;
    static sketch_xxh64_state_t state() {
        sketch_xxh64_state_t state = SKETCH_XXH64_INIT(0x700000007);
        return state;
    }
};
#endif

XXH64_hash_t fox(void);
XXH64_hash_t fox(void) { return XXH64("fox", 3, 0); }

int main(void) {
    sketch_xxh64_state_t x;
    sketch_murmur3_x64_128_state_t m;
    sketch_xxh64_reset(&x, 7);
    sketch_murmur3_x64_128_reset(&m, 7);
#ifdef __cplusplus
    int seed = 7;
    uint64_t word = 7; /* needs no cast */
    if (own::state().seed >> 32 != 7) return 1;
    sketch_xxh64_state_t other_x[] = {SKETCH_XXH64_INIT(seed), SKETCH_XXH64_INIT(word)};
    sketch_murmur3_x64_128_state_t other_m[] = {SKETCH_MURMUR3_X64_128_INIT(seed),
                                                SKETCH_MURMUR3_X64_128_INIT(word)};
    for (int i = 0; i < 2; i++)
        if (memcmp(&x, &other_x[i], sizeof x) || memcmp(&m, &other_m[i], sizeof m)) return 1;
#endif
    return memcmp(&x, &constant_x, sizeof x) || memcmp(&m, &constant_m, sizeof m);
}
