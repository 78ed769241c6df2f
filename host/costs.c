/* What a call costs on this machine: prints the rows of the table in docs/HOST.md. Times are processor time in nanoseconds,
 * the median of so many repetitions as the first argument says, or else 31; in each of them the clients have new ids. */
#define _POSIX_C_SOURCE 200809L
#include <stdio.h>
#include <stdlib.h>
#include <string.h>
#include <time.h>

#include "boomspool.h"

enum { LARGEST = 1000, MOST_WORDS = 16 + 16 * LARGEST, MOST_CLIENTS = 2 * LARGEST, MOST_REPEATS = 101 };
enum { COMMAND = 9, COMMANDS = 1000, FILLING = 5 * LARGEST };

enum kind { ARRIVE = 1, SLIDE = 2 };

struct request {
    enum kind kind;
    uint32_t id, ticket;
};

/* One table, for single calls and for a run, and the requests as numbers and as commands. */
static uint32_t by_calls[MOST_WORDS], by_run[MOST_WORDS];
static size_t words;
static uint32_t ids[MOST_CLIENTS];
static struct request requests[FILLING];
static uint8_t commands[FILLING * COMMAND];
static uint32_t spread[1024];

static uint64_t roll(void)
{
    static uint64_t at;
    uint64_t z = at += 0x9E3779B97F4A7C15u;
    z = (z ^ (z >> 30)) * 0xBF58476D1CE4E5B9u;
    z = (z ^ (z >> 27)) * 0x94D049BB133111EBu;
    return z ^ (z >> 31);
}

static void must(int holds, const char *what)
{
    if (!holds) {
        fprintf(stderr, "costs: %s\n", what);
        exit(1);
    }
}

/* Document 01's spread table, and the bucket of an id. */
static void make_spread(void)
{
    uint64_t x = 1;
    for (size_t i = 0; i < 1024; i++) {
        spread[i] = (uint32_t)x;
        x = x * 48271 % 2147483647;
    }
}

static size_t bucket(uint32_t id, size_t q)
{
    uint64_t sum = 0;
    for (unsigned j = 0; j < 4; j++) {
        sum += spread[256 * j + (id >> 8 * j & 255)];
    }
    return (size_t)(sum % q);
}

/* Twice as many clients as places: ids as they fall, or all in one bucket. */
static void choose_ids(size_t q, int crowded)
{
    for (size_t n = 0; n < 2 * q;) {
        ids[n] = (uint32_t)roll();
        n += !crowded || bucket(ids[n], q) == 0;
    }
}

/* So many requests of these clients, evenly. Every other one slides: after arrivals alone every client would soon have one
 * request or none, and every arrival be turned away. */
static void write_requests(size_t q, size_t count)
{
    for (size_t i = 0; i < count; i++) {
        uint8_t *at = commands + COMMAND * i;
        const struct request r = { i % 2 == 0 ? SLIDE : ARRIVE, ids[roll() % (2 * q)], (uint32_t)i };
        requests[i] = r;
        at[0] = (uint8_t)r.kind;
        for (unsigned j = 0; j < 4; j++) {
            at[1 + j] = (uint8_t)(r.id >> 8 * j);
            at[5 + j] = (uint8_t)(r.ticket >> 8 * j);
        }
    }
}

static void run(size_t count)
{
    must(boomspool_run(by_run, words, commands, COMMAND * count, count).done == count, "a run was refused");
}

/* A window that has been full for a while, and the next requests. */
static void prepare(size_t q, int crowded)
{
    words = boomspool_words(q);
    must(boomspool_lay_out(by_run, words, q) == BOOMSPOOL_OK, "lay-out was refused");
    choose_ids(q, crowded);
    write_requests(q, 5 * q);
    run(5 * q);
    memcpy(by_calls, by_run, sizeof by_calls);
    write_requests(q, COMMANDS);
}

static double now(void)
{
    struct timespec t;
    clock_gettime(CLOCK_THREAD_CPUTIME_ID, &t);
    return (double)t.tv_sec * 1e9 + (double)t.tv_nsec;
}

/* A run of no commands: the check alone. */
static double check_time(size_t q)
{
    const size_t each = 100 + 1000 / q;
    const double from = now();
    for (size_t i = 0; i < each; i++) {
        run(0);
    }
    return (now() - from) / (double)each;
}

static uint32_t call(const struct request *r)
{
    return r->kind == SLIDE ? boomspool_slide(by_calls, words, r->id, r->ticket).number
                            : boomspool_arrive(by_calls, words, r->id, r->ticket).number;
}

static double single_time(void)
{
    const double from = now();
    for (size_t i = 0; i < COMMANDS; i++) {
        must(call(&requests[i]) == BOOMSPOOL_OK, "a request was refused");
    }
    return (now() - from) / COMMANDS;
}

static double run_time(void)
{
    const double from = now();
    run(COMMANDS);
    return (now() - from) / COMMANDS;
}

static int compare(const void *a, const void *b)
{
    const double x = *(const double *)a, y = *(const double *)b;
    return (x > y) - (x < y);
}

static double median(double *values, size_t count)
{
    qsort(values, count, sizeof values[0], compare);
    return values[count / 2];
}

enum what { CHECK, SINGLE, RUN, CROWDED_CHECK, CROWDED_RUN, FIGURES };

static void row(size_t q, size_t repeats)
{
    static double t[FIGURES][MOST_REPEATS];
    double m[FIGURES];
    for (size_t i = 0; i < repeats; i++) {
        prepare(q, 0);
        t[CHECK][i] = check_time(q);
        t[SINGLE][i] = single_time();
        t[RUN][i] = run_time();
        must(memcmp(by_calls, by_run, sizeof by_run) == 0, "calls and run leave different tables");
        prepare(q, 1);
        t[CROWDED_CHECK][i] = check_time(q);
        t[CROWDED_RUN][i] = run_time();
    }
    for (size_t w = 0; w < FIGURES; w++) {
        m[w] = median(t[w], repeats);
    }
    printf("| %zu | %.0f | %.0f | %.0f | %.1f | %.0f | %.1f | %.0f | %.1f |\n", q, m[CHECK], m[SINGLE], m[RUN], m[SINGLE] / m[RUN],
           m[CROWDED_CHECK], m[CROWDED_CHECK] / m[CHECK], m[CROWDED_RUN], m[CROWDED_RUN] / m[RUN]);
}

int main(int argc, char **argv)
{
    static const size_t sizes[] = { 1, 64, 256, 1000 };
    const int asked = argc > 1 ? atoi(argv[1]) : 31;
    must(asked >= 1 && asked <= MOST_REPEATS, "1 to 101 repetitions");
    make_spread();
    for (size_t i = 0; i < sizeof sizes / sizeof sizes[0]; i++) {
        row(sizes[i], (size_t)asked);
    }
    return 0;
}
