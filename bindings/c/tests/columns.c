/* Columns of keys: each result compared with the call on its key, and what is an error. The Bloom
 * filter: lengths, merges, folds, the header; check.c has its bytes. Each array is a block, so that
 * valgrind sees accesses outside of it. */
#include "sketch_hash.h"
#include "helpers.h"
#include <stdlib.h>
#include <string.h>

enum { KEYS = 50, BITS = 96, NONE = 77, RESULTS = 16 * KEYS };
static const uint64_t seed = UINT64_MAX - 6;

/* What a call does, and what the column is. The offsets of 32 bits serve as numbers too. */
enum { XXH64, MURMUR, INSERT, CONTAINS };
enum { OFFSETS32, OFFSETS64, NUMBERS32, NUMBERS64, HASHES };

static unsigned char *keys, *out, *bits, *expected_out, *expected_bits;
static uint32_t *narrow;
static uint64_t *wide, *numbers;
static size_t length, length_of_bits = BITS;

/* The keys have `least` bytes and up to `spread` more. */
static void lay_out(unsigned least, unsigned spread) {
    wide[0] = narrow[0] = 5;
    for (int i = 0; i < KEYS; i++) {
        wide[i + 1] = wide[i] + least + random31() % (spread + 1);
        narrow[i + 1] = (uint32_t)wide[i + 1];
        numbers[i] = random64();
    }
    length = wide[KEYS] + 3;
    keys = realloc(keys, length);
    fill(keys, length);
}

/* A number for a call on a column. */
#define CALL(call, column) (10 * (call) + (column))

/* The cases of offsets or numbers of a width. */
#define CASES(width, offsets, numbers)                                                             \
    case CALL(XXH64, OFFSETS##width):                                                              \
        return sketch_xxh64_each##width(keys, n, offsets, given, seed, words, KEYS, wrong);        \
    case CALL(MURMUR, OFFSETS##width):                                                             \
        return sketch_murmur3_x64_128_each##width(keys, n, offsets, given, seed, pairs, KEYS,      \
                                                  wrong);                                          \
    case CALL(INSERT, OFFSETS##width):                                                             \
        return sketch_bloom_insert_each##width(in, size, keys, n, offsets, given, wrong);          \
    case CALL(CONTAINS, OFFSETS##width):                                                           \
        return sketch_bloom_contains_each##width(in, size, keys, n, offsets, given, out, KEYS,     \
                                                 wrong);                                           \
    case CALL(INSERT, NUMBERS##width):                                                             \
        return sketch_bloom_insert_each_u##width(in, size, numbers, given);                        \
    case CALL(CONTAINS, NUMBERS##width):                                                           \
        return sketch_bloom_contains_each_u##width(in, size, numbers, given, out, KEYS);

/* The call, with a column whose last `missing` offsets or numbers are not given. */
static int each(int call, int column, size_t missing, size_t *wrong) {
    unsigned char *in = bits;
    const size_t size = length_of_bits, n = length, given = KEYS + (column <= OFFSETS64) - missing;
    uint64_t *words = (uint64_t *)out, (*pairs)[2] = (void *)out;
    switch (CALL(call, column)) {
        CASES(32, narrow, narrow)
        CASES(64, wide, numbers)
    case CALL(XXH64, NUMBERS64): return sketch_xxh64_each_u64(numbers, given, seed, words, KEYS);
    case CALL(INSERT, HASHES): return sketch_bloom_insert_each_hash(in, size, numbers, given);
    default: /* CALL(CONTAINS, HASHES) */
        return sketch_bloom_contains_each_hash(in, size, numbers, given, out, KEYS);
    }
}

/* The calls on the bytes of key i, those of a number from the lowest on, or on its hash. */
static void expect(int call, int column, int i) {
    unsigned char number[8];
    for (int byte = 0; byte < 8; byte++)
        number[byte] = (unsigned char)((column == NUMBERS32 ? narrow[i] : numbers[i]) >> 8 * byte);
    const void *key = column <= OFFSETS64 ? keys + wide[i] : number;
    size_t n = column <= OFFSETS64 ? wide[i + 1] - wide[i] : column == NUMBERS32 ? 4 : 8;
    uint64_t hash = column == HASHES ? numbers[i] : sketch_xxh64(key, n, call == XXH64 ? seed : 0);
    if (call == XXH64) memcpy(expected_out + 8 * i, &hash, 8);
    if (call == MURMUR) sketch_murmur3_x64_128(key, n, seed, (uint64_t *)expected_out + 2 * i);
    if (call == INSERT && column == HASHES) sketch_bloom_insert_hash(expected_bits, BITS, hash);
    if (call == INSERT && column != HASHES) sketch_bloom_insert(expected_bits, BITS, key, n);
    if (call == CONTAINS)
        expected_out[i] = (unsigned char)sketch_bloom_contains_hash(expected_bits, BITS, hash);
}

/* A call that fails changes nothing but the index. */
static void compare(int call, int column, size_t missing, int error, size_t index) {
    size_t wrong = NONE;
    memset(out, 9, RESULTS), memset(expected_out, 9, RESULTS);
    memset(bits, 0, BITS), memset(bits, 255, 32); /* it contains the keys of the first block */
    memcpy(expected_bits, bits, BITS);
    for (int i = 0; !error && i < KEYS; i++) expect(call, column, i);
    same("the status", each(call, column, missing, &wrong), error);
    same("the wrong offset", wrong, index);
    same("the results", memcmp(out, expected_out, RESULTS), 0);
    same("the bits", memcmp(bits, expected_bits, BITS), 0);
}

/* Runs a test with each call and each column that it takes. */
static void all_calls(void (*test)(int call, int column, size_t number), size_t number) {
    for (int call = XXH64; call <= CONTAINS; call++)
        for (int column = OFFSETS32; column <= HASHES; column++)
            if (column <= OFFSETS64 || call >= INSERT || (call == XXH64 && column == NUMBERS64))
                test(call, column, number);
}

static void each_key(int call, int column, size_t missing) {
    compare(call, column, missing, SKETCH_OK, NONE);
}

static void missing_values(int call, int column, size_t missing) {
    if (call == INSERT) return; /* inserts those that there are */
    if (column <= OFFSETS64)
        compare(call, column, missing, SKETCH_ERROR_OFFSET, KEYS + 1 - missing);
    else
        compare(call, column, missing, SKETCH_ERROR_COUNT, NONE);
}

static void wrong_length(int call, int column, size_t wrong) {
    length_of_bits = wrong;
    if (call >= INSERT) compare(call, column, 0, SKETCH_ERROR_LENGTH, NONE);
    length_of_bits = BITS;
}

static void wrong_offset(int call, int column, size_t i) {
    if (column <= OFFSETS64) compare(call, column, 0, SKETCH_ERROR_OFFSET, i);
}

static void wrong_offsets(void) {
    for (size_t i = 0; i <= KEYS; i++) {
        const uint64_t fits = wide[i], wrong[] = {length + 1, UINT64_MAX, i ? wide[i - 1] - 1 : 0};
        for (int w = 0; w < (i ? 3 : 2); w++) {
            wide[i] = wrong[w], narrow[i] = (uint32_t)wrong[w];
            all_calls(wrong_offset, i);
        }
        wide[i] = fits, narrow[i] = (uint32_t)fits;
    }
}

static void no_keys(void) {
    const uint64_t offset = 0;
    size_t wrong = NONE;
    same("one offset", sketch_xxh64_each64(NULL, 0, &offset, 1, 7, NULL, 0, &wrong), 0);
    same("none, XXH64", sketch_xxh64_each64(NULL, 0, NULL, 0, 7, NULL, 0, &wrong), 0);
    same("none, Murmur", sketch_murmur3_x64_128_each32(NULL, 0, NULL, 0, 7, NULL, 0, &wrong), 0);
    same("no numbers", sketch_xxh64_each_u64(NULL, 0, 7, NULL, 0), 0);
    same("no inserts", sketch_bloom_insert_each32(bits, 32, NULL, 0, NULL, 0, &wrong), 0);
    same("no look-ups", sketch_bloom_contains_each64(bits, 32, NULL, 0, NULL, 0, NULL, 0, &wrong),
         0);
    same("nothing is written", wrong, NONE);
}

static void columns(void) {
    narrow = malloc((KEYS + 1) * sizeof *narrow);
    wide = malloc((KEYS + 1) * sizeof *wide);
    numbers = malloc(KEYS * sizeof *numbers);
    out = malloc(RESULTS), expected_out = malloc(RESULTS);
    unsigned char *block = malloc(BITS + 1);
    bits = block + 1; /* an odd address */
    expected_bits = malloc(BITS);
    for (unsigned n = 0; n <= 200; n++) {
        lay_out(n <= 100 ? n : 0, n <= 100 ? 0 : n - 100);
        all_calls(each_key, 0);
    }
    lay_out(1, 40);
    wrong_offsets();
    for (size_t missing = 1; missing <= KEYS; missing++) all_calls(missing_values, missing);
    for (size_t wrong = 0; wrong < BITS; wrong++)
        if (wrong == 0 || wrong % 32) all_calls(wrong_length, wrong);
    no_keys();
    free(block);
}

/* ---- Bloom filters */

static const unsigned char header_of_1024[16] = {0x15, 0x80, 0x10, 0x1c, 0x1c, 0, 0, 0x1c,
                                                 0x1c, 0,    0,    0x1c, 0x1c, 0, 0, 0};

static void sizes(void) {
    same("bytes for no key", sketch_bloom_bytes_for(0, 100), 32);
    same("bytes for 10^8 keys", sketch_bloom_bytes_for(100000000, 100), 1 << 27);
    same("bytes for 10^9 keys", sketch_bloom_bytes_for(1000000000, 100), 0);
    /* With sizes of 32 bits these are 2^32 - 32 and 0. */
    const uint64_t above = (uint64_t)1 << 37;
    same("the greatest length", sketch_bloom_check((size_t)(above - 32)), SKETCH_OK);
    same("a length of 2^37", sketch_bloom_check((size_t)above), SKETCH_ERROR_LENGTH);
}

static void wrong_lengths(void) {
    for (size_t length = 0; length < 64; length++) {
        unsigned char *block = calloc(1, length ? length : 1);
        const int is_wrong = length != 32, expected = is_wrong ? SKETCH_ERROR_LENGTH : SKETCH_OK;
        same("the check", sketch_bloom_check(length), expected);
        same("a key of an empty filter", sketch_bloom_contains(block, length, "fox", 3), is_wrong);
        same("a hash of an empty filter", sketch_bloom_contains_hash(block, length, 7), is_wrong);
        same("an insert", sketch_bloom_insert(block, length, "fox", 3), expected);
        same("an insert of a hash", sketch_bloom_insert_hash(block, length, 7), expected);
        for (size_t i = 0; i < length; i++) same("nothing is written", is_wrong && block[i], 0);
        free(block);
    }
    same("no bits", sketch_bloom_insert(NULL, 0, NULL, 0), SKETCH_ERROR_LENGTH);
    same("no filter rules nothing out", sketch_bloom_contains(NULL, 0, NULL, 0), 1);
}

static void merges(void) {
    unsigned char *into = malloc(64), *from = malloc(64);
    fill(into, 64), fill(from, 64);
    unsigned char first = into[0], last = into[63];
    same("a shorter filter", sketch_bloom_merge(into, 64, from, 32), SKETCH_ERROR_LENGTH);
    same("a longer filter", sketch_bloom_merge(into, 32, from, 64), SKETCH_ERROR_LENGTH);
    same("no filters", sketch_bloom_merge(into, 33, from, 33), SKETCH_ERROR_LENGTH);
    same("nothing is written", into[0] == first && into[63] == last, 1);
    same("a merge", sketch_bloom_merge(into, 64, from, 64), SKETCH_OK);
    same("the first byte", into[0], first | from[0]);
    same("the last byte", into[63], last | from[63]);
    free(into), free(from);
}

/* Of 2^40 keys for each block, so many are found in the filter. */
static uint64_t found_in(const unsigned char *filter, size_t bytes) {
    uint64_t sum = 0;
    for (size_t block = 0; block < bytes; block += 32) {
        uint64_t product = 1;
        for (size_t word = block; word < block + 32; word += 4) {
            uint64_t ones = 0;
            for (int bit = 0; bit < 32; bit++) ones += filter[word + bit / 8] >> bit % 8 & 1;
            product *= ones;
        }
        sum += product;
    }
    return sum;
}

/* A filter is folded to each rate that is one in a power of two, and then cannot be folded once more. */
static void folds(void) {
    enum { BYTES = 1 << 14, HASHES = 200 };
    unsigned char *filter = malloc(BYTES), *expected = malloc(BYTES);
    for (int power = 0; power <= 40; power++) {
        memset(filter, 0, BYTES);
        for (int i = 0; i < HASHES; i++) sketch_bloom_insert_hash(filter, BYTES, random64());
        memcpy(expected, filter, BYTES);
        size_t bytes = BYTES;
        for (; bytes > 32; bytes /= 2) {
            unsigned char next[BYTES];
            memcpy(next, expected, bytes);
            sketch_bloom_fold(next, bytes);
            if (found_in(next, bytes / 2) > (uint64_t)bytes / 64 << (40 - power)) break;
            memcpy(expected, next, bytes / 2);
        }
        same("a fold to a rate", sketch_bloom_fold_to(filter, BYTES, (uint64_t)1 << power), bytes);
        same("the folded filter", memcmp(filter, expected, bytes), 0);
    }
    same("one in 0", sketch_bloom_fold_to(filter, BYTES, 0), BYTES);
    same("no filter to fold", sketch_bloom_fold_to(filter, 33, 1), 0);
    same("a block", sketch_bloom_block_offset(96, UINT64_MAX), 64);
    same("a block of no filter", sketch_bloom_block_offset(97, 1), SIZE_MAX);
    free(filter), free(expected);
}

static void headers(void) {
    enum { MAX = SKETCH_BLOOM_HEADER_MAX };
    unsigned char *header = malloc(MAX), *input = malloc(16);
    uint64_t bytes = 77;
    same("a header's length", sketch_bloom_header_write(1024, header, MAX), 16);
    same("a header", memcmp(header, header_of_1024, 16), 0);
    same("the longest", sketch_bloom_header_write(1 << 27, header, MAX), MAX);
    same("a buffer that is too short", sketch_bloom_header_write(1024, input, 15), 0);
    same("no filter", sketch_bloom_header_write(1000, header, MAX), 0);
    same("2^31 bytes", sketch_bloom_header_write((uint64_t)1 << 31, header, MAX), 0);
    memcpy(input, header_of_1024, 16);
    for (size_t length = 0; length < 16; length++)
        same("a truncated header", sketch_bloom_header_read(input, length, &bytes), 0);
    same("nothing is written", bytes, 77);
    same("a header that is read", sketch_bloom_header_read(input, 16, &bytes), 16);
    same("the filter's length", bytes, 1024);
    free(header), free(input);
}

int main(void) {
    columns();
    sizes();
    wrong_lengths();
    merges();
    folds();
    headers();
    return conclude();
}
