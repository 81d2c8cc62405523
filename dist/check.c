/* Compares answers of the library on this machine with published ones: make check. */
#include "sketch_hash.h"
#include <inttypes.h>
#include <stdio.h>
#include <string.h>

static int faults;

static void same(const char *what, uint64_t answer, uint64_t published) {
    if (answer == published) return;
    faults++;
    printf("%s is %016" PRIx64 ". ", what, answer);
}

/* SMHasher's verification value: 32 bits of the hash of the hashes of 256 keys, the lowest byte of
 * each word first. Key i is the bytes from 0 to i - 1. */
static void verification_values(void) {
    static unsigned char key[256], xxh64[256][8], murmur[256][16];
    uint64_t hash[2];
    for (size_t i = 0; i < 256; i++) {
        key[i] = (unsigned char)i;
        hash[0] = sketch_xxh64(key, i, 256 - i);
        for (int byte = 0; byte < 8; byte++) xxh64[i][byte] = (unsigned char)(hash[0] >> 8 * byte);
        sketch_murmur3_x64_128(key, i, 256 - i, hash);
        sketch_murmur3_x64_128_bytes(hash, murmur[i]);
    }
    sketch_murmur3_x64_128(murmur, sizeof murmur, 0, hash);
    same("XXH64's verification value", (uint32_t)sketch_xxh64(xxh64, sizeof xxh64, 0), 0x024b7cf4);
    same("Murmur's verification value", (uint32_t)hash[0], 0x6384ba69);
}

/* The filter of 32 bytes with the keys a0 to a9, as Arrow writes it. Each key is found in it. A filter of
 * 64 bytes that is folded is the same, and one that has this filter twice is folded by its bits. */
static void filter(void) {
    unsigned char bits[32] = {0}, wide[64] = {0}, twice[64], found[20], keys[20];
    uint64_t offsets[11] = {0};
    size_t wrong;
    for (unsigned char i = 0; i < 10; i++) {
        keys[2 * i] = 'a', keys[2 * i + 1] = (unsigned char)('0' + i);
        offsets[i + 1] = 2 * i + 2;
        sketch_bloom_insert(bits, sizeof bits, keys + 2 * i, 2);
        sketch_bloom_insert(wide, sizeof wide, keys + 2 * i, 2);
    }
    same("XXH64 of a filter", sketch_xxh64(bits, sizeof bits, 0), 0xb716d51e108463f9);
    for (size_t i = 0; i < 10; i++)
        found[i] = (unsigned char)sketch_bloom_contains(bits, sizeof bits, keys + 2 * i, 2);
    sketch_bloom_contains_each64(bits, sizeof bits, keys, sizeof keys, offsets, 11, found + 10, 10,
                                 &wrong);
    for (size_t i = 0; i < 20; i++) same("a key that was inserted", found[i], 1);
    memcpy(twice, bits, 32), memcpy(twice + 32, bits, 32);
    sketch_bloom_fold(wide, sizeof wide);
    same("a folded filter", memcmp(wide, bits, 32) == 0, 1);
    sketch_bloom_merge(wide, sizeof wide, twice, sizeof twice);
    same("a merged filter", memcmp(wide, bits, 32) == 0, 1);
    /* 32^8, divided by the product of the bits that are set in each word */
    same("the length, folded", sketch_bloom_fold_to(twice, 64, 60118), 32);
    same("the length, not folded", sketch_bloom_fold_to(twice, 64, 60119), 64);
}

/* The seed hash of DataSketches' default seed. */
static void seed_hash(void) {
    uint16_t hash = 0;
    sketch_seed_hash(9001, &hash);
    same("the seed hash of 9001", hash, 37836);
}

int main(void) {
    same("the version", sketch_hash_version(), SKETCH_HASH_VERSION);
    verification_values();
    filter();
    seed_hash();
    puts(faults ? "FAILED: these answers are not the published ones"
                : "OK: the answers are the published ones");
    return faults != 0;
}
