/* Times two functions in turn, and prints the median of their times' ratios with its spread, and the time of a call. */
#include <stdint.h>
#include <stdio.h>
#include <stdlib.h>
#include <time.h>

enum { ROUNDS = 41, KEYS = 4096 };

static volatile uint64_t sink;

/* Hashes `total` bytes, in keys or in writes of `length` bytes. */
typedef uint64_t work(size_t total, size_t length);

/* Sets the offsets of keys that have `least` to `most` bytes. The lengths do not repeat, so that no branch predictor learns
 * them: nor does it in a column of texts. */
static inline void set_offsets(uint64_t *offsets, size_t keys, unsigned least, unsigned most) {
    uint64_t random = 7;
    for (size_t i = 0; i < keys; i++) {
        random = random * 6364136223846793005 + 1442695040888963407;
        offsets[i + 1] = offsets[i] + least + (random >> 33) % (most - least + 1);
    }
}

static inline double seconds(work *f, size_t total, size_t length, int times) {
    struct timespec from, to;
    clock_gettime(CLOCK_THREAD_CPUTIME_ID, &from);
    for (int i = 0; i < times; i++) sink ^= f(total, length);
    clock_gettime(CLOCK_THREAD_CPUTIME_ID, &to);
    return (double)(to.tv_sec - from.tv_sec) + 1e-9 * (double)(to.tv_nsec - from.tv_nsec);
}

static inline int by_value(const void *a, const void *b) {
    double x = *(const double *)a, y = *(const double *)b;
    return (x > y) - (x < y);
}

/* Prints a line: the group, the case, the peer, the median of the rounds' ratios, their 10th and 90th percentile, and the
 * median of our nanoseconds for each of `items` calls. The two take turns, and take turns at being first. */
static inline void compare(const char *table, const char *name, const char *peer, work *ours,
                           work *theirs, size_t total, size_t length, size_t items) {
    double ratios[ROUNDS], times_of_ours[ROUNDS];
    if (ours(total, length) != theirs(total, length)) {
        fprintf(stderr, "%s, %s, %s: different results\n", table, name, peer);
        exit(1);
    }
    int times = (int)(4e-4 / seconds(ours, total, length, 1)) + 1;
    for (int round = 0; round < ROUNDS; round++) {
        double ours_first = round % 2 ? seconds(ours, total, length, times) : 0;
        double theirs_time = seconds(theirs, total, length, times);
        times_of_ours[round] = round % 2 ? ours_first : seconds(ours, total, length, times);
        ratios[round] = times_of_ours[round] / theirs_time;
    }
    qsort(ratios, ROUNDS, sizeof *ratios, by_value);
    qsort(times_of_ours, ROUNDS, sizeof *times_of_ours, by_value);
    printf("%s\t%s\t%s\t%.2f\t%.2f\t%.2f\t%.1f\n", table, name, peer, ratios[ROUNDS / 2],
           ratios[ROUNDS / 10], ratios[ROUNDS - 1 - ROUNDS / 10],
           times_of_ours[ROUNDS / 2] / times / (double)items * 1e9);
    fflush(stdout);
}
