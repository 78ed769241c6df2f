/* Measures the proved archive beside the careful C program in its two forms, HL-HITTERS on Boost and direct counting, on the same
   commands. `bench times` prints medians of interleaved repetitions, `bench instructions` is run under callgrind and dumps a count
   for each part. Both assert that the archive and the C programs leave the same words, and that all give the same sums. */
#include "boomspool.h"
#include "flat.h"
#include "rivals.h"
#include <stdbool.h>
#include <stdio.h>
#include <stdlib.h>
#include <string.h>
#include <time.h>
#include <valgrind/callgrind.h>

enum { LARGEST = 1000, MOST_WORDS = 16 + 16 * LARGEST, MOST_COMMANDS = 4000, MOST_REPEATS = 101 };

static const size_t sizes[] = {4, 16, 64, 256, 1000};
enum { SIZES = sizeof sizes / sizeof sizes[0] };

/* Commands of a hundred, how many clients there are for each place, and whose the requests are. */
enum whose { EVENLY, HEAVY_TAIL, ONE_AGGRESSOR };
struct mix { const char *name; unsigned arrive, slide; size_t clients; enum whose whose; };
static const struct mix mixes[] = {
    {"uniform", 80, 0, 1, EVENLY},
    {"heavy tail", 80, 0, 2, HEAVY_TAIL},
    {"one aggressor", 80, 0, 1, ONE_AGGRESSOR},
    {"slides", 0, 100, 1, EVENLY},
};
enum { MIXES = sizeof mixes / sizeof mixes[0] };

static uint64_t dice;

static uint64_t stir(uint64_t z) {
    z = (z ^ (z >> 30)) * 0xBF58476D1CE4E5B9u;
    z = (z ^ (z >> 27)) * 0x94D049BB133111EBu;
    return z ^ (z >> 31);
}

static uint64_t roll(void) { return stir(dice += 0x9E3779B97F4A7C15u); }

static void fail(const char *what) {
    fprintf(stderr, "bench: %s\n", what);
    exit(1);
}

/* The commands of a mix. */
static uint8_t commands[9 * MOST_COMMANDS];

/* Clients have other ids in each repetition, so that no lucky or unlucky buckets are measured. */
static uint64_t repetition;

static uint32_t client_id(size_t n) { return (uint32_t)stir((repetition << 32) + n + 1); }

static uint32_t choose_id(const struct mix *mix, size_t q) {
    size_t n = mix->clients * q;
    double u = (double)(roll() >> 11) / 9007199254740992.0;
    switch (mix->whose) {
    case HEAVY_TAIL:
        return client_id((size_t)(u * u * u * (double)n));
    case ONE_AGGRESSOR:
        return roll() % 10 < 6 ? client_id(0) : client_id(roll() % n);
    default:
        return client_id(roll() % n);
    }
}

static void write_commands(const struct mix *mix, size_t q, size_t n) {
    repetition++;
    for (size_t i = 0; i < n; i++) {
        uint8_t *c = commands + 9 * i;
        size_t x = roll() % 100;
        uint32_t id = choose_id(mix, q), ticket = (uint32_t)roll();
        c[0] = (uint8_t)(x < mix->arrive ? 1 : x < mix->arrive + mix->slide ? 2 : 3);
        memset(c + 1, 0, 8);
        if (c[0] != 3) {
            memcpy(c + 1, &id, 4);
            memcpy(c + 5, &ticket, 4);
        }
    }
}

/* The programs at one Q, all in the same state. */
static uint32_t ours[MOST_WORDS], theirs[MOST_WORDS], narrows[MOST_WORDS];
static size_t words;
static struct hitters *hitters;
static struct direct *direct;

#define ABSENT_ID 0xFFFFFFF1u

/* Work to be measured: what a part does once. */
static size_t batch;
static volatile uint64_t sink;

/* A dozen tables of the mix, checked in turn: a processor learns the branches of one that is checked over and over. */
enum { TABLES = 12 };
static uint32_t tables[TABLES][MOST_WORDS];

static void ours_checks(void) {
    for (size_t i = 0; i < batch; i++) {
        sink += boomspool_count(tables[i % TABLES], words, ABSENT_ID).number;
    }
}

static void flat_checks(void) {
    for (size_t i = 0; i < batch; i++) {
        uint32_t count;
        sink += flat_count(tables[i % TABLES], words, ABSENT_ID, &count);
    }
}

static void narrow_checks(void) {
    for (size_t i = 0; i < batch; i++) {
        uint32_t count;
        sink += narrow_count(tables[i % TABLES], words, ABSENT_ID, &count);
    }
}

static uint32_t number_at(const uint8_t *bytes) {
    uint32_t x;
    memcpy(&x, bytes, sizeof x);
    return x;
}

static void ours_single(void) {
    for (size_t i = 0; i < batch; i++) {
        const uint8_t *c = commands + 9 * i;
        uint32_t id = number_at(c + 1), ticket = number_at(c + 5);
        sink += c[0] == 1 ? boomspool_arrive(ours, words, id, ticket).id : c[0] == 2 ? boomspool_slide(ours, words, id, ticket).id : boomspool_serve(ours, words).id;
    }
}

static void flat_single(void) {
    for (size_t i = 0; i < batch; i++) {
        const uint8_t *c = commands + 9 * i;
        uint32_t id = number_at(c + 1), ticket = number_at(c + 5);
        sink += c[0] == 1 ? flat_arrive(theirs, words, id, ticket).id : c[0] == 2 ? flat_slide(theirs, words, id, ticket).id : flat_serve(theirs, words).id;
    }
}

/* Sums of the last run of each program. */
enum program { OURS, FLAT, NARROW, HITTERS, DIRECT, PROGRAMS };
static struct flat_sums sums[PROGRAMS];

static void ours_run(void) {
    struct boomspool_ran r = boomspool_run(ours, words, commands, 9 * batch, UINT64_MAX);
    sums[OURS] = (struct flat_sums){r.stop, r.done, r.joined, r.evicted, r.passed, r.served, r.turned, r.idle};
}

static void ours_empty_run(void) { sink += boomspool_run(ours, words, commands, 0, UINT64_MAX).stop; }

static void flat_run_part(void) { sums[FLAT] = flat_run(theirs, words, commands, 9 * batch, UINT64_MAX); }
static void flat_empty_run(void) { sink += flat_run(theirs, words, commands, 0, UINT64_MAX).stop; }
static void narrow_run_part(void) { sums[NARROW] = narrow_run(narrows, words, commands, 9 * batch, UINT64_MAX); }
static void narrow_empty_run(void) { sink += narrow_run(narrows, words, commands, 0, UINT64_MAX).stop; }
static void hitters_run_part(void) { sums[HITTERS] = hitters_run(hitters, commands, 9 * batch); }
static void direct_run_part(void) { sums[DIRECT] = direct_run(direct, commands, 9 * batch); }

/* The archive and the C programs have the same words, and Boost and direct counting the same heaviest clients. */
static void assert_same_state(bool with_direct) {
    static uint32_t a[2 * LARGEST], b[2 * LARGEST];
    if (memcmp(ours, theirs, words * sizeof ours[0]) != 0 || memcmp(ours, narrows, words * sizeof ours[0]) != 0) {
        fail("the archive and the C programs leave other words");
    }
    size_t clients = boomspool_heaviest(ours, words, SIZE_MAX, a, 2 * LARGEST).pairs;
    if (hitters_heaviest(hitters, b, LARGEST) != clients || memcmp(a, b, 2 * clients * sizeof a[0]) != 0) {
        fail("Boost has other clients");
    }
    if (with_direct && direct_heaviest(direct, b) && memcmp(a, b, 2 * sizeof a[0]) != 0) {
        fail("direct counting has another heaviest client");
    }
}

static void assert_same_sums(size_t programs) {
    for (size_t i = 1; i < programs; i++) {
        if (memcmp(&sums[i].done, &sums[FLAT].done, 7 * sizeof(uint64_t)) != 0) {
            fail("other sums");
        }
    }
}

/* Carries a single-call batch out on the other programs, so that their states stay the same. */
static void follow_singles(void) {
    narrow_run_part();
    hitters_run_part();
    direct_run_part();
}

/* A warm state: the window has been full for a while. */
static void begin(size_t q, const struct mix *mix) {
    dice = 1 + q;
    words = boomspool_words(q);
    if (boomspool_lay_out(ours, words, q) != 0 || flat_lay_out(theirs, words, q) != 0 || narrow_lay_out(narrows, words, q) != 0) {
        fail("lay-out");
    }
    hitters = hitters_new(q);
    direct = direct_new(q);
    batch = q < 50 ? 200 : 3 * q;
    for (size_t k = 0; k < TABLES; k++) {
        write_commands(mix, q, batch);
        ours_run();
        flat_run_part();
        follow_singles();
        memcpy(tables[k], ours, words * sizeof ours[0]);
    }
    assert_same_state(true);
}

static void end(void) {
    hitters_free(hitters);
    direct_free(direct);
}

/* Times. */

static double now(void) {
    struct timespec t;
    clock_gettime(CLOCK_THREAD_CPUTIME_ID, &t);
    return (double)t.tv_sec * 1e9 + (double)t.tv_nsec;
}

static double time_of(void (*part)(void)) {
    double t = now();
    part();
    return now() - t;
}

static int compare_doubles(const void *a, const void *b) {
    double x = *(const double *)a, y = *(const double *)b;
    return (x > y) - (x < y);
}

static size_t repeats;

struct series { double value[MOST_REPEATS]; };

static void print_series(size_t q, const struct mix *mix, const char *what, const char *who, struct series s) {
    qsort(s.value, repeats, sizeof s.value[0], compare_doubles);
    printf("%zu\t%s\t%s\t%s\t%.4g\t%.4g\t%.4g\n", q, mix->name, what, who, s.value[repeats / 2], s.value[repeats / 4], s.value[3 * repeats / 4]);
}

static struct series ratio(struct series a, struct series b) {
    for (size_t i = 0; i < repeats; i++) {
        a.value[i] /= b.value[i];
    }
    return a;
}

static void time_checks(size_t q, const struct mix *mix) {
    struct series a, b, c;
    batch = q < 50 ? 100 * TABLES : q < 100 ? 20 * TABLES : 2 * TABLES;
    for (size_t i = 0; i < repeats; i++) {
        a.value[i] = time_of(ours_checks) / (double)batch;
        b.value[i] = time_of(flat_checks) / (double)batch;
        c.value[i] = time_of(narrow_checks) / (double)batch;
    }
    print_series(q, mix, "check", "archive", a);
    print_series(q, mix, "check", "C", b);
    print_series(q, mix, "check", "narrow", c);
    print_series(q, mix, "check", "archive/C", ratio(a, b));
    print_series(q, mix, "check", "archive/narrow", ratio(a, c));
}

static void time_singles(size_t q, const struct mix *mix) {
    struct series a, b;
    batch = q < 50 ? 2000 : 20000 / q;
    for (size_t i = 0; i < repeats; i++) {
        write_commands(mix, q, batch);
        a.value[i] = time_of(ours_single) / (double)batch;
        b.value[i] = time_of(flat_single) / (double)batch;
        follow_singles();
        assert_same_state(true);
    }
    print_series(q, mix, "single", "archive", a);
    print_series(q, mix, "single", "C", b);
    print_series(q, mix, "single", "archive/C", ratio(a, b));
}

/* Runs, each net of the check that it makes: a run of no commands is the check alone. */
static void time_runs(size_t q, const struct mix *mix) {
    struct series t[PROGRAMS];
    batch = MOST_COMMANDS;
    for (size_t i = 0; i < repeats; i++) {
        write_commands(mix, q, batch);
        t[FLAT].value[i] = (time_of(flat_run_part) - time_of(flat_empty_run)) / (double)batch;
        t[NARROW].value[i] = (time_of(narrow_run_part) - time_of(narrow_empty_run)) / (double)batch;
        t[HITTERS].value[i] = time_of(hitters_run_part) / (double)batch;
        t[OURS].value[i] = (time_of(ours_run) - time_of(ours_empty_run)) / (double)batch;
        assert_same_sums(DIRECT);
        assert_same_state(false);
    }
    print_series(q, mix, "run", "archive", t[OURS]);
    print_series(q, mix, "run", "archive/C", ratio(t[OURS], t[FLAT]));
    print_series(q, mix, "run", "archive/narrow", ratio(t[OURS], t[NARROW]));
    print_series(q, mix, "run", "archive/Boost", ratio(t[OURS], t[HITTERS]));
    print_series(q, mix, "run", "C", t[FLAT]);
    print_series(q, mix, "run", "narrow", t[NARROW]);
    print_series(q, mix, "run", "Boost", t[HITTERS]);
}

static void time_direct(size_t q, const struct mix *mix) {
    struct series t;
    size_t all = repeats;
    repeats = 7;
    batch = q < 50 ? 2000 : 200;
    for (size_t i = 0; i < repeats; i++) {
        write_commands(mix, q, batch);
        t.value[i] = time_of(direct_run_part) / (double)batch;
    }
    print_series(q, mix, "run", "direct", t);
    repeats = all;
}

/* Instructions. */

static void count_of(size_t q, const struct mix *mix, const char *what, const char *who, size_t each, void (*part)(void)) {
    char label[100];
    snprintf(label, sizeof label, "%zu\t%s\t%s\t%s\t%zu", q, mix->name, what, who, each);
    CALLGRIND_ZERO_STATS;
    part();
    CALLGRIND_DUMP_STATS_AT(label);
}

static void count_instructions(size_t q, const struct mix *mix) {
    batch = TABLES;
    count_of(q, mix, "check", "archive", batch, ours_checks);
    count_of(q, mix, "check", "C", batch, flat_checks);
    count_of(q, mix, "check", "narrow", batch, narrow_checks);
    batch = q < 100 ? 400 : 40;
    write_commands(mix, q, batch);
    count_of(q, mix, "single", "archive", batch, ours_single);
    count_of(q, mix, "single", "C", batch, flat_single);
    follow_singles();
    assert_same_state(true);
    batch = MOST_COMMANDS;
    write_commands(mix, q, batch);
    count_of(q, mix, "run", "C", batch, flat_run_part);
    count_of(q, mix, "empty run", "C", 1, flat_empty_run);
    count_of(q, mix, "run", "narrow", batch, narrow_run_part);
    count_of(q, mix, "empty run", "narrow", 1, narrow_empty_run);
    count_of(q, mix, "run", "Boost", batch, hitters_run_part);
    count_of(q, mix, "run", "archive", batch, ours_run);
    count_of(q, mix, "empty run", "archive", 1, ours_empty_run);
    assert_same_sums(DIRECT);
    assert_same_state(false);
    batch = q < 100 ? 400 : 40;
    count_of(q, mix, "run", "direct", batch, direct_run_part);
}

int main(int argc, char **argv) {
    bool instructions = argc > 1 && strcmp(argv[1], "instructions") == 0;
    repeats = argc > 2 ? (size_t)atoi(argv[2]) : 41;
    for (size_t s = 0; s < SIZES; s++) {
        for (size_t m = 0; m < MIXES; m++) {
            begin(sizes[s], &mixes[m]);
            if (instructions) {
                count_instructions(sizes[s], &mixes[m]);
            } else {
                time_checks(sizes[s], &mixes[m]);
                time_singles(sizes[s], &mixes[m]);
                time_runs(sizes[s], &mixes[m]);
                time_direct(sizes[s], &mixes[m]);
            }
            end();
        }
    }
    return 0;
}
