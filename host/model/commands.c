/* Drives the archive and the plain model with the same commands and compares every reply, every question and the words. */
#include "boomspool.h"
#include "calls.h"
#include "picture.h"
#include "soundness.h"
#include <inttypes.h>
#include <stdio.h>
#include <stdlib.h>
#include <string.h>

/* In each hundredth of the whole every event must have been met so often. */
enum { MOST_IDS = 2 * LARGEST_Q, ASKED_IDS = 16, RUN_COMMANDS = 2000, LEAST_MET = 300 };

/* How often each command comes, of a hundred, and whose requests they are. */
enum whose { EVENLY, HEAVY_TAIL, ONE_AGGRESSOR, NEWCOMERS };
struct mix { const char *name; unsigned arrive, slide; enum whose whose; };
static const struct mix mixes[] = {
    {"uniform", 60, 20, EVENLY},
    {"heavy tail", 70, 10, HEAVY_TAIL},
    {"one aggressor", 70, 5, ONE_AGGRESSOR},
    {"slides", 4, 92, EVENLY},
    {"drained", 42, 4, EVENLY},
    {"newcomers", 60, 20, NEWCOMERS},
    {"slides and arrivals", 48, 48, EVENLY},
};
enum { MIXES = sizeof mixes / sizeof mixes[0] };

/* How much is done at a Q: single steps for each mix and palette, and a question round after every so many; then runs. */
struct share { size_t q, steps, ask_every, look_every, runs; };
static const struct share shares[] = {
    {1, 9000, 3, 1, 60},    {2, 9000, 4, 1, 60},    {3, 9000, 4, 1, 60},    {4, 9000, 4, 2, 60},      {5, 9000, 4, 2, 60},
    {16, 4000, 40, 10, 30}, {64, 2000, 200, 40, 15}, {256, 500, 250, 100, 6}, {1000, 120, 60, 60, 3},
};
enum { SHARES = sizeof shares / sizeof shares[0] };

static struct lent lent;
static struct model model;
static uint32_t palette[MOST_IDS];
static size_t ids;
static struct dice dice;

/* Ids of every kind: the ends of the range, single bytes, random ones, and some of one bucket. */
static void make_palette(size_t n, size_t q) {
    static const uint32_t plain[] = {0, NONE, 1, 2, 255, 256, 65536, 0x80000000u, 0x01000000u, NONE - 1};
    ids = 0;
    while (ids < n) {
        uint32_t id = ids < 10 && below(&dice, 2) ? plain[ids] : (uint32_t)roll(&dice);
        for (size_t tries = 0; ids % 3 == 2 && bucket_of(id, q) != bucket_of(palette[0], q) && tries < 4 * q; tries++) {
            id = (uint32_t)roll(&dice);
        }
        palette[ids++] = id;
    }
}

static uint32_t choose_id(enum whose whose) {
    size_t a = below(&dice, ids), b = below(&dice, ids);
    switch (whose) {
    case HEAVY_TAIL:
        return palette[a * b * b / (ids * ids)];
    case ONE_AGGRESSOR:
        return below(&dice, 10) < 7 ? palette[0] : palette[a];
    case NEWCOMERS:
        return below(&dice, 10) < 7 ? (uint32_t)roll(&dice) : palette[a];
    default:
        return palette[a];
    }
}

static struct ask choose_step(const struct mix *mix) {
    struct ask ask = {0};
    size_t x = below(&dice, 100);
    ask.call = x < mix->arrive ? ARRIVE : x < mix->arrive + mix->slide ? SLIDE : SERVE;
    ask.request.id = choose_id(mix->whose);
    ask.request.ticket = below(&dice, 8) ? (uint32_t)below(&dice, 4) : (uint32_t)roll(&dice) | (below(&dice, 4) ? 0 : NONE);
    return ask;
}

static size_t choose_k(void) {
    const size_t ks[] = {0, 1, 2, model.clients, model.clients + 1, model.clients / 2, model.places, (size_t)1 << 31, (size_t)1 << 32, (size_t)1 << 63, SIZE_MAX};
    return ks[below(&dice, sizeof ks / sizeof ks[0])];
}

static size_t choose_room(size_t k) {
    size_t need = 2 * (k < model.clients ? k : model.clients);
    const size_t rooms[] = {need, need, need + 1, need + 5, MOST_OUT_WORDS, need > 0 ? need - 1 : 0, need / 2, 0};
    return rooms[below(&dice, sizeof rooms / sizeof rooms[0])];
}

static void ask_listing(enum call call) {
    struct ask ask = {0};
    ask.call = call;
    ask.k = choose_k();
    ask.out_words = choose_room(ask.k);
    compare_call(&lent, &model, 0, &ask);
}

/* Counts, oldest and newest of the palette's clients, of somebody who waits and of a stranger, and a few listings. */
static void ask_all(void) {
    size_t first = ids > ASKED_IDS ? below(&dice, ids - ASKED_IDS) : 0;
    size_t asked = ids > ASKED_IDS ? ASKED_IDS : ids;
    for (size_t i = 0; i < asked + 2; i++) {
        struct ask ask = {0};
        ask.request.id = i < asked ? palette[first + i] : (uint32_t)roll(&dice);
        if (i == asked && model.clients > 0) {
            ask.request.id = model.order[below(&dice, model.clients)].id;
        }
        for (ask.call = COUNT; ask.call <= NEWEST; ask.call++) {
            compare_call(&lent, &model, 0, &ask);
        }
    }
    for (size_t i = 0; i < 3; i++) {
        ask_listing(HEAVIEST);
        ask_listing(LIGHTEST);
    }
}

/* Lay-out's words against the drawing of an empty window with the rows free in order; the slack stays. */
static void lay_out(size_t q) {
    static struct picture p;
    static uint32_t expected[MOST_WORDS];
    size_t slack = below(&dice, MOST_SLACK + 1);
    uint32_t *t = lend(&lent, words_of(q) + slack);
    memset(t, 0x5A, (words_of(q) + slack) * sizeof t[0]);
    memset(&p, 0, sizeof p);
    p.q = q;
    for (uint32_t row = 0; row < q; row++) {
        p.free_items.row[p.free_items.length++] = row;
        p.free_clients.row[p.free_clients.length++] = row;
    }
    picture_draw(&p, expected);
    uint32_t number = boomspool_lay_out(t, words_of(q) + slack, q);
    if (number != 0) {
        differ("lay-out: number", number, 0);
    }
    for (size_t i = 0; i < words_of(q) + slack; i++) {
        uint32_t word = i < words_of(q) ? expected[i] : 0x5A5A5A5Au;
        if (t[i] != word) {
            differ("lay-out: word", t[i], word);
        }
    }
    model_empty(&model, q);
}

/* A sound table that no commands need lead to: rows, chains and equal counts in any order. */
static void start_anywhere(size_t q) {
    static struct picture p;
    picture_random(&p, q, below(&dice, 4) ? q : below(&dice, q + 1), palette, ids, &dice);
    picture_draw(&p, lend(&lent, words_of(q)));
    picture_model(&p, &model);
    compare_table(&lent, &model);
}

static void begin(const char *test, const struct mix *mix, uint64_t seed, size_t q, size_t n) {
    place = (struct place){test, mix->name, seed, q, 0};
    dice.at = seed;
    make_palette(n, q);
    if (seed % 2) {
        start_anywhere(q);
    } else {
        lay_out(q);
    }
}

static void single_steps(const struct share *share, const struct mix *mix, size_t n, uint64_t seed, size_t steps) {
    begin("single steps", mix, seed, share->q, n);
    for (size_t step = 1; step <= steps; step++) {
        place.step = step;
        struct ask ask = choose_step(mix);
        compare_call(&lent, &model, 0, &ask);
        if (step % share->look_every == 0) {
            compare_table(&lent, &model);
        }
        if (step % share->ask_every == 0) {
            ask_all();
        }
    }
    compare_table(&lent, &model);
}

static void write_number(uint8_t *bytes, uint32_t x) {
    for (size_t i = 0; i < 4; i++) {
        bytes[i] = (uint8_t)(x >> (8 * i));
    }
}

/* Commands of the mix, now and then a bad one, and an end that may be cut. */
static size_t write_commands(const struct mix *mix, uint8_t *bytes, size_t n, size_t bad_in) {
    for (size_t i = 0; i < n; i++) {
        struct ask ask = choose_step(mix);
        uint8_t *c = bytes + COMMAND_BYTES * i;
        bool bad = below(&dice, bad_in) == 0, serve = ask.call == SERVE;
        c[0] = (uint8_t)(ask.call == ARRIVE ? 1 : ask.call == SLIDE ? 2 : 3);
        write_number(c + 1, serve ? 0 : ask.request.id);
        write_number(c + 5, serve ? 0 : ask.request.ticket);
        if (bad && serve) {
            c[1 + below(&dice, 8)] = (uint8_t)(1 + below(&dice, 255));
        } else if (bad) {
            c[0] = (uint8_t)(below(&dice, 2) ? 0 : 4 + below(&dice, 252));
        }
    }
    return COMMAND_BYTES * n + (below(&dice, 2) ? below(&dice, COMMAND_BYTES) : 0);
}

/* Totals of a day so far: small, large, or at the end. */
static uint64_t choose_total(void) { return below(&dice, 3) ? below(&dice, 1000) : UINT64_MAX - below(&dice, 200); }

static void runs(const struct share *share, const struct mix *mix, size_t n, uint64_t seed, size_t times) {
    static uint8_t bytes[COMMAND_BYTES * (RUN_COMMANDS + 1)];
    begin("runs", mix, seed, share->q, n);
    for (size_t step = 1; step <= times; step++) {
        struct ask ask = {0};
        size_t length = below(&dice, 3) ? below(&dice, RUN_COMMANDS) : below(&dice, 8);
        place.step = step;
        ask.call = below(&dice, 2) ? RUN : RUN_DAY;
        ask.day = (struct day){choose_total(), choose_total(), choose_total(), choose_total(), choose_total(), choose_total()};
        ask.bytes = write_commands(mix, bytes, length, below(&dice, 4) ? 100 * RUN_COMMANDS : 20);
        ask.commands = bytes;
        const uint64_t budgets[] = {UINT64_MAX, length, length + 1, length / 2, below(&dice, 10)};
        ask.budget = budgets[below(&dice, 3) ? 0 : below(&dice, 5)];
        compare_call(&lent, &model, 0, &ask);
        compare_table(&lent, &model);
        ask_listing(HEAVIEST);
    }
}

/* Lay-out's refusals, in their order, and the number of words. */
static void lay_out_refusals(void) {
    static const size_t bad[] = {0, 1001, 65540, ((size_t)1 << 32) + 4, ((size_t)1 << 60), SIZE_MAX, SIZE_MAX / 16};
    static uint32_t t[MOST_WORDS];
    place = (struct place){"lay-out refused", "none", 0, 0, 0};
    memset(t, 0x5A, sizeof t);
    if (boomspool_lay_out(NULL, 0, 4) != 2 || boomspool_serve(NULL, 0).number != 2) {
        differ("no words: number", 0, 2);
    }
    for (size_t i = 0; i < sizeof bad / sizeof bad[0]; i++) {
        for (size_t words = 0; words < 3; words++) {
            uint32_t number = boomspool_lay_out(t, words == 2 ? MOST_WORDS : 15 * words, bad[i]);
            if (number != 1 || boomspool_words(bad[i]) != 0) {
                differ("lay-out: number", number, 1);
            }
        }
    }
    for (size_t q = 1; q <= LARGEST_Q; q++) {
        const size_t rooms[] = {0, 15, 16, words_of(q) - 1, words_of(q) / 2};
        for (size_t i = 0; i < 5; i++) {
            uint32_t number = boomspool_lay_out(t, rooms[i], q);
            if (number != 2 || boomspool_words(q) != words_of(q)) {
                differ("lay-out: number", number, 2);
            }
        }
    }
    for (size_t i = 0; i < MOST_WORDS; i++) {
        if (t[i] != 0x5A5A5A5Au) {
            differ("lay-out refused: word", t[i], 0x5A5A5A5Au);
        }
    }
}

static void report(void) {
    uint64_t steps = sums.calls[ARRIVE] + sums.calls[SLIDE] + sums.calls[SERVE], questions = 0;
    for (size_t c = HEAVIEST; c <= NEWEST; c++) {
        questions += sums.calls[c];
    }
    printf("commands: %" PRIu64 " single (arrive %" PRIu64 ", slide %" PRIu64 ", serve %" PRIu64 "), %" PRIu64 " in %" PRIu64 " runs; no difference\n",
           steps, sums.calls[ARRIVE], sums.calls[SLIDE], sums.calls[SERVE], sums.commands_in_runs, sums.calls[RUN] + sums.calls[RUN_DAY]);
    printf("  single steps: joined %" PRIu64 ", evicted %" PRIu64 ", turned away %" PRIu64 ", passed %" PRIu64 ", served %" PRIu64 ", at most %" PRIu64 " words altered\n",
           sums.events[JOINED], sums.events[EVICTED], sums.events[TURNED_AWAY], sums.events[PASSED], sums.events[SERVED], sums.most_altered);
    printf("  questions: %" PRIu64 " (heaviest %" PRIu64 ", lightest %" PRIu64 ", count %" PRIu64 ", oldest %" PRIu64 ", newest %" PRIu64 "); refused 4: %" PRIu64 ", 5: %" PRIu64 ", 6: %" PRIu64 "\n",
           questions, sums.calls[HEAVIEST], sums.calls[LIGHTEST], sums.calls[COUNT], sums.calls[OLDEST], sums.calls[NEWEST], sums.numbers[4],
           sums.numbers[5], sums.numbers[6]);
    printf("  runs stopped with 0: %" PRIu64 ", 1: %" PRIu64 ", 7: %" PRIu64 ", 8: %" PRIu64 "; %" PRIu64 " of them with a day record\n", sums.stops[0], sums.stops[1],
           sums.stops[7], sums.stops[8], sums.calls[RUN_DAY]);
}

static void met_enough(size_t part) {
    for (size_t e = JOINED; e <= SERVED; e++) {
        if (sums.events[e] < LEAST_MET * part) {
            printf("commands: FAILED: an event was not met %zu times\n", LEAST_MET * part);
            exit(1);
        }
    }
}

/* `part` in a hundred of the whole. */
int main(int argc, char **argv) {
    size_t part = argc > 1 ? (size_t)atoi(argv[1]) : 100;
    lay_out_refusals();
    uint64_t seed = 1;
    for (size_t s = 0; s < SHARES; s++) {
        const size_t palettes[] = {2, shares[s].q / 2 + 3, 2 * shares[s].q};
        for (size_t m = 0; m < MIXES; m++) {
            for (size_t n = 0; n < 3; n++) {
                single_steps(&shares[s], &mixes[m], palettes[n], seed++, shares[s].steps * part / 100 + 1);
                single_steps(&shares[s], &mixes[m], palettes[n], seed++, 1 + shares[s].steps * part / 200);
                runs(&shares[s], &mixes[m], palettes[n], seed++, 1 + shares[s].runs * part / 100);
            }
        }
    }
    report();
    met_enough(part);
    return 0;
}
