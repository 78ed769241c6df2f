/* The check's worst case: every waiting client in one bucket, beside the same number of clients spread over the buckets.
 * Prints rows of a table: Q, nanoseconds of the check for each, and their ratio. */
#define _POSIX_C_SOURCE 200809L
#include "boomspool.h"
#include <stdio.h>
#include <stdlib.h>
#include <time.h>

enum { LARGEST = 1000, WORDS = 16 + 16 * LARGEST, REPEATS = 31 };

static uint32_t spread[1024];
static uint32_t table[WORDS];

static void make_spread(void) {
    uint64_t x = 1;
    for (size_t i = 0; i < 1024; i++) {
        spread[i] = (uint32_t)x;
        x = x * 48271 % 2147483647;
    }
}

static size_t bucket(uint32_t id, size_t q) {
    uint64_t sum = 0;
    for (unsigned j = 0; j < 4; j++)
        sum += spread[256 * j + (id >> 8 * j & 255)];
    return (size_t)(sum % q);
}

/* Fills a window of q places with q clients, in bucket 0 alone or in any. */
static void fill(size_t q, int crowded) {
    if (boomspool_lay_out(table, WORDS, q) != 0)
        abort();
    uint32_t id = 0;
    for (size_t n = 0; n < q; id++) {
        uint8_t command[9] = {1, (uint8_t)id, (uint8_t)(id >> 8), (uint8_t)(id >> 16), (uint8_t)(id >> 24), 0, 0, 0, 0};
        if (crowded && bucket(id, q) != 0)
            continue;
        if (boomspool_run(table, WORDS, command, sizeof command, 1).joined != 1)
            abort();
        n++;
    }
}

static int less(const void *a, const void *b) {
    double x = *(const double *)a, y = *(const double *)b;
    return (x > y) - (x < y);
}

/* The median time of a run of no commands: the check alone. */
static double check_time(size_t q) {
    double times[REPEATS];
    size_t each = 200000 / (q * q / 8 + 20 * q) + 1;
    for (size_t r = 0; r < REPEATS; r++) {
        struct timespec from, to;
        clock_gettime(CLOCK_THREAD_CPUTIME_ID, &from);
        for (size_t i = 0; i < each; i++)
            if (boomspool_run(table, WORDS, NULL, 0, 0).stop != 0)
                abort();
        clock_gettime(CLOCK_THREAD_CPUTIME_ID, &to);
        times[r] = ((double)(to.tv_sec - from.tv_sec) * 1e9 + (double)(to.tv_nsec - from.tv_nsec)) / (double)each;
    }
    qsort(times, REPEATS, sizeof times[0], less);
    return times[REPEATS / 2];
}

int main(void) {
    static const size_t sizes[] = {4, 16, 64, 256, 1000};
    make_spread();
    for (size_t i = 0; i < sizeof sizes / sizeof sizes[0]; i++) {
        size_t q = sizes[i];
        fill(q, 0);
        double apart = check_time(q);
        fill(q, 1);
        double crowded = check_time(q);
        printf("| %zu | %.0f | %.0f | %.1f |\n", q, apart, crowded, crowded / apart);
    }
    return 0;
}
