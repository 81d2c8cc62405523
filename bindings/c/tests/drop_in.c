/* A program for xxHash. It is compiled with its header, and with the one of dist/drop_in. */
#include <inttypes.h>
#include <stdio.h>
#include <string.h>
#include <xxhash.h>

static unsigned char bytes[3000];

/* In pieces of `step` bytes, by a copy of the state from the middle on. */
static XXH64_hash_t in_pieces(size_t length, size_t step, XXH64_hash_t seed) {
    XXH64_state_t *state = XXH64_createState(), *other = XXH64_createState();
    XXH64_hash_t hash;
    int status = XXH64_reset(state, seed);
    for (size_t at = 0; at < length; at += step) {
        if (at >= length / 2) {
            XXH64_copyState(other, state);
            memset(state, 0x55, sizeof *state);
            XXH64_copyState(state, other);
        }
        status |= XXH64_update(state, bytes + at, length - at < step ? length - at : step);
    }
    status |= XXH64_update(state, NULL, 0);
    hash = XXH64_digest(state);
    if (hash != XXH64_digest(state)) status = 1;
    status |= XXH64_freeState(other) | XXH64_freeState(state) | XXH64_freeState(NULL);
    return status == XXH_OK ? hash : ~hash;
}

int main(void) {
    XXH64_canonical_t canonical;
    XXH64_state_t state;
    for (size_t i = 0; i < sizeof bytes; i++) bytes[i] = (unsigned char)(i * i >> 3 ^ i);
    for (size_t length = 0; length < sizeof bytes; length += length < 200 ? 1 : 97) {
        const XXH64_hash_t seed = length % 3 == 0 ? 0 : UINT64_MAX / (length + 1);
        const XXH64_hash_t hash = XXH64(bytes, length, seed);
        printf("%016" PRIx64 " %016" PRIx64 " %016" PRIx64 " ", (uint64_t)hash,
               (uint64_t)in_pieces(length, 1 + length / 7, seed),
               (uint64_t)in_pieces(length, 32, seed));
        XXH64_canonicalFromHash(&canonical, hash);
        for (size_t i = 0; i < sizeof canonical; i++) printf("%02x", canonical.digest[i]);
        XXH64_reset(&state, seed);
        XXH64_update(&state, bytes, length);
        printf(" %d\n", XXH64_hashFromCanonical(&canonical) == XXH64_digest(&state));
    }
    printf("%016" PRIx64 " %d\n", (uint64_t)XXH64(NULL, 0, 7),
           XXH_versionNumber() == XXH_VERSION_NUMBER);
    return 0;
}
