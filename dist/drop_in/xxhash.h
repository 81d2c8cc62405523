/* XXH64 by the names of xxHash's header, for programs that are written for it. Licence: Apache-2.0.
 *
 * Each call is a function of this file that calls sketch_hash. With XXH_INLINE_ALL the file includes
 * sketch_hash.c, so that nothing needs to be linked. A state is not one of libxxhash: give it to no
 * code that was compiled with another xxhash.h.
 *
 * The version is below 0.8, so programs that ask for it take XXH64 and no XXH3. A call that is not
 * here does not compile, also in standards that allow calls of what is not declared. */
#ifndef SKETCH_HASH_XXHASH_H
#define SKETCH_HASH_XXHASH_H
#ifdef XXHASH_H_5627135585666179
#error "another xxhash.h was included before that of sketch_hash"
#endif
#define XXHASH_H_5627135585666179 1 /* so no other is included later */

#include <stdlib.h>
#if defined XXH_INLINE_ALL || defined XXH_PRIVATE_API
#define SKETCH_HASH_INLINE
#include "sketch_hash.c"
#else
#include "sketch_hash.h"
#endif

#define XXH_VERSION_MAJOR 0
#define XXH_VERSION_MINOR 7
#define XXH_VERSION_RELEASE 4
#define XXH_VERSION_NUMBER 704

#if defined __cplusplus || defined __STDC_VERSION__ && __STDC_VERSION__ >= 199901L
#define XXH_PUBLIC_API static inline
#else
#define XXH_PUBLIC_API static __inline
#endif

#ifdef XXH_NAMESPACE
#define XXH_CAT(A, B) A##B
#define XXH_NAME2(A, B) XXH_CAT(A, B)
#define XXH_versionNumber XXH_NAME2(XXH_NAMESPACE, XXH_versionNumber)
#define XXH64 XXH_NAME2(XXH_NAMESPACE, XXH64)
#define XXH64_createState XXH_NAME2(XXH_NAMESPACE, XXH64_createState)
#define XXH64_freeState XXH_NAME2(XXH_NAMESPACE, XXH64_freeState)
#define XXH64_copyState XXH_NAME2(XXH_NAMESPACE, XXH64_copyState)
#define XXH64_reset XXH_NAME2(XXH_NAMESPACE, XXH64_reset)
#define XXH64_update XXH_NAME2(XXH_NAMESPACE, XXH64_update)
#define XXH64_digest XXH_NAME2(XXH_NAMESPACE, XXH64_digest)
#define XXH64_canonicalFromHash XXH_NAME2(XXH_NAMESPACE, XXH64_canonicalFromHash)
#define XXH64_hashFromCanonical XXH_NAME2(XXH_NAMESPACE, XXH64_hashFromCanonical)
#endif

/* Calls that need no type of their own, and so could be called undeclared. */
#define XXH32(input, length, seed) XXH32_is_not_in_sketch_hash
#define XXH32_createState() XXH32_is_not_in_sketch_hash
#define XXH3_createState() XXH3_is_not_in_sketch_hash
#define XXH3_64bits(input, length) XXH3_is_not_in_sketch_hash
#define XXH3_64bits_withSeed(input, length, seed) XXH3_is_not_in_sketch_hash
#define XXH3_64bits_withSecret(input, length, secret, size) XXH3_is_not_in_sketch_hash
#define XXH3_64bits_withSecretandSeed(input, length, secret, size, seed) XXH3_is_not_in_sketch_hash
#define XXH3_128bits(input, length) XXH3_is_not_in_sketch_hash
#define XXH3_128bits_withSeed(input, length, seed) XXH3_is_not_in_sketch_hash
#define XXH3_128bits_withSecret(input, length, secret, size) XXH3_is_not_in_sketch_hash
#define XXH3_128bits_withSecretandSeed(input, length, secret, size, seed) XXH3_is_not_in_sketch_hash
#define XXH3_generateSecret(secret, size, from, from_size) XXH3_is_not_in_sketch_hash
#define XXH3_generateSecret_fromSeed(secret, seed) XXH3_is_not_in_sketch_hash
#define XXH128(input, length, seed) XXH128_is_not_in_sketch_hash

#ifdef __cplusplus
extern "C" {
#endif

typedef enum { XXH_OK = 0, XXH_ERROR } XXH_errorcode;
typedef uint64_t XXH64_hash_t;
typedef struct XXH64_state_s XXH64_state_t;
struct XXH64_state_s {
    sketch_xxh64_state_t state;
};
typedef struct {
    unsigned char digest[8];
} XXH64_canonical_t;

XXH_PUBLIC_API unsigned XXH_versionNumber(void) { return XXH_VERSION_NUMBER; }

XXH_PUBLIC_API XXH64_hash_t XXH64(const void *input, size_t length, XXH64_hash_t seed) {
    return sketch_xxh64(input, length, seed);
}

/** Returns NULL if there is no memory. A reset comes before the first update. */
XXH_PUBLIC_API XXH64_state_t *XXH64_createState(void) {
    return (XXH64_state_t *)malloc(sizeof(XXH64_state_t));
}

XXH_PUBLIC_API XXH_errorcode XXH64_freeState(XXH64_state_t *state) {
    free(state);
    return XXH_OK;
}

XXH_PUBLIC_API void XXH64_copyState(XXH64_state_t *to, const XXH64_state_t *from) { *to = *from; }

XXH_PUBLIC_API XXH_errorcode XXH64_reset(XXH64_state_t *state, XXH64_hash_t seed) {
    sketch_xxh64_reset(&state->state, seed);
    return XXH_OK;
}

/** Returns XXH_ERROR, and changes nothing, if `input` is NULL but has a length. */
XXH_PUBLIC_API XXH_errorcode XXH64_update(XXH64_state_t *state, const void *input, size_t length) {
    if (input == NULL && length != 0) return XXH_ERROR;
    sketch_xxh64_update(&state->state, input, length);
    return XXH_OK;
}

XXH_PUBLIC_API XXH64_hash_t XXH64_digest(const XXH64_state_t *state) {
    return sketch_xxh64_digest(&state->state);
}

/** Writes the eight bytes of a hash, the highest first. */
XXH_PUBLIC_API void XXH64_canonicalFromHash(XXH64_canonical_t *to, XXH64_hash_t hash) {
    int i;
    for (i = 0; i < 8; i++) to->digest[i] = (unsigned char)(hash >> (56 - 8 * i));
}

XXH_PUBLIC_API XXH64_hash_t XXH64_hashFromCanonical(const XXH64_canonical_t *from) {
    XXH64_hash_t hash = 0;
    int i;
    for (i = 0; i < 8; i++) hash = hash << 8 | from->digest[i];
    return hash;
}

#ifdef __cplusplus
}
#endif

#endif
