/* What recordings cost: a replay beside a run of the same commands, and recording one command beside a memcpy and a sum of
 * 512 bytes. Prints rows of two tables; the two of a row follow each other in every repetition, and the ratio is the median
 * of theirs. Asserts that replay and run leave the same words. */
#define _POSIX_C_SOURCE 200809L
#include "boomspool.h"
#include <stdio.h>
#include <stdlib.h>
#include <string.h>
#include <time.h>

enum { LARGEST = 1000, WORDS = 16 + 16 * LARGEST, BLOCKS = 64, COMMANDS = 56 * BLOCKS, REPEATS = 61 };

static uint32_t run_table[WORDS], replay_table[WORDS];
static uint8_t commands[9 * COMMANDS], recording[512 * BLOCKS];
static uint64_t dice = 1;
static volatile uint32_t sink;

static uint32_t roll(void) {
    dice = dice * 6364136223846793005u + 1442695040888963407u;
    return (uint32_t)(dice >> 32);
}

static void fail(const char *what) {
    fprintf(stderr, "recordings: %s\n", what);
    exit(1);
}

/* Commands of which `slides` in a hundred are slides, a fifth of the others serves, the rest arrivals, of as many clients as places. */
static void write_commands(size_t q, unsigned slides) {
    for (size_t i = 0; i < COMMANDS; i++) {
        uint8_t *c = commands + 9 * i;
        uint32_t id = roll() % (uint32_t)q * 2654435761u, ticket = roll();
        c[0] = roll() % 100 < slides ? 2 : roll() % 5 == 0 ? 3 : 1;
        memset(c + 1, 0, 8);
        if (c[0] != 3) {
            memcpy(c + 1, &id, 4);
            memcpy(c + 5, &ticket, 4);
        }
    }
}

static void record_all(void) {
    uint8_t block[512];
    for (uint64_t n = 0; n < COMMANDS; n++) {
        const uint8_t *c = commands + 9 * n;
        uint32_t id, ticket;
        memcpy(&id, c + 1, 4);
        memcpy(&ticket, c + 5, 4);
        if (boomspool_record(block, n, c[0], id, ticket) != 0)
            fail("a command was refused");
        memcpy(recording + 512 * (n / 56), block, 512);
    }
}

static double now(void) {
    struct timespec t;
    clock_gettime(CLOCK_THREAD_CPUTIME_ID, &t);
    return (double)t.tv_sec * 1e9 + (double)t.tv_nsec;
}

static int less(const void *a, const void *b) {
    double x = *(const double *)a, y = *(const double *)b;
    return (x > y) - (x < y);
}

static double median(double *x) {
    qsort(x, REPEATS, sizeof x[0], less);
    return x[REPEATS / 2];
}

static void replay_beside_run(size_t q, const char *name, unsigned slides) {
    double run[REPEATS], replay[REPEATS], ratio[REPEATS];
    if (boomspool_lay_out(run_table, WORDS, q) != 0)
        fail("lay-out");
    for (size_t r = 0; r < REPEATS; r++) {
        write_commands(q, slides);
        record_all();
        memcpy(replay_table, run_table, sizeof run_table);
        double from = now();
        struct boomspool_ran ran = boomspool_run(run_table, WORDS, commands, sizeof commands, COMMANDS);
        double between = now();
        struct boomspool_replayed replayed = boomspool_replay(replay_table, WORDS, recording, sizeof recording, 0);
        double to = now();
        if (ran.stop != 0 || replayed.stop != 0 || replayed.done != COMMANDS || memcmp(run_table, replay_table, sizeof run_table) != 0)
            fail("replay and run differ");
        run[r] = (between - from) / COMMANDS;
        replay[r] = (to - between) / COMMANDS;
        ratio[r] = replay[r] / run[r];
    }
    printf("| %zu | %s | %.1f | %.1f | %.2f |\n", q, name, median(replay), median(run), median(ratio));
}

/* The price that recording is held to: 512 bytes copied, and (place + 1) * byte summed over the first 508. */
__attribute__((noinline)) static uint32_t copy_and_sum(uint8_t *to, const uint8_t *from) {
    uint32_t sum = 0;
    memcpy(to, from, 512);
    __asm__ volatile("" ::: "memory");
    for (uint32_t place = 0; place < 508; place++)
        sum += (place + 1) * to[place];
    return sum;
}

static void record_beside_sum(void) {
    static uint8_t block[512], copy[512];
    double record[REPEATS], peer[REPEATS], ratio[REPEATS];
    for (size_t r = 0; r < REPEATS; r++) {
        double from = now();
        for (uint64_t n = 0; n < COMMANDS; n++)
            if (boomspool_record(block, n, 1, (uint32_t)n * 2654435761u, (uint32_t)n) != 0)
                fail("a command was refused");
        double between = now();
        for (uint64_t n = 0; n < COMMANDS; n++)
            sink += copy_and_sum(copy, recording + 512 * (n / 56));
        double to = now();
        record[r] = (between - from) / COMMANDS;
        peer[r] = (to - between) / COMMANDS;
        ratio[r] = record[r] / peer[r];
    }
    printf("| %.1f | %.1f | %.2f |\n", median(record), median(peer), median(ratio));
}

int main(int argc, char **argv) {
    static const size_t sizes[] = {1, 4, 16, 64, 256, 1000};
    if (argc > 1 && strcmp(argv[1], "record") == 0) {
        write_commands(64, 0);
        record_all();
        record_beside_sum();
        return 0;
    }
    for (size_t i = 0; i < sizeof sizes / sizeof sizes[0]; i++) {
        replay_beside_run(sizes[i], "arrivals and serves", 0);
        replay_beside_run(sizes[i], "slides", 100);
    }
    return 0;
}
