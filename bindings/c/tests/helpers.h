/* Comparisons, which are counted and reported if they fail, and random numbers and bytes. */
#include <inttypes.h>
#include <stdio.h>

static long checks, faults;

/* Takes statuses too: both sides are converted alike. */
static inline void same(const char *what, uint64_t result, uint64_t expected) {
    checks++;
    if (result == expected) return;
    faults++;
    fprintf(stderr, "%s: %016" PRIx64 ", and not %016" PRIx64 "\n", what, result, expected);
}

/* Returns the status of the program: 0 if something was compared, and all was equal. */
static inline int conclude(void) {
    printf("%ld comparisons, %ld faults\n", checks, faults);
    return faults != 0 || checks == 0;
}

/* Returns 31 random bits, the same in each run and on each machine. */
static inline uint64_t random31(void) {
    static uint64_t word = 1;
    word = word * 6364136223846793005ULL + 1442695040888963407ULL;
    return word >> 33;
}

static inline uint64_t random64(void) {
    const uint64_t high = random31(), middle = random31();
    return high << 33 ^ middle << 7 ^ random31();
}

static inline void fill(unsigned char *bytes, size_t length) {
    for (size_t i = 0; i < length; i++) bytes[i] = (unsigned char)random31();
}
