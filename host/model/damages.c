/* Damages and rearranges tables and compares which of them the archive refuses with the soundness test written from the document. */
#include "boomspool.h"
#include "calls.h"
#include "picture.h"
#include "recording.h"
#include "soundness.h"
#include <inttypes.h>
#include <stdio.h>
#include <stdlib.h>
#include <string.h>
#include <sys/mman.h>

/* How many tables of a Q. */
struct share { size_t q, tables; };
static const struct share shares[] = {{1, 12000}, {2, 40000}, {3, 60000}, {4, 80000}, {5, 80000}, {8, 60000}, {16, 30000}, {64, 3000}, {256, 150}, {1000, 40}};
enum { SHARES = sizeof shares / sizeof shares[0], MOST_IDS = 2 * LARGEST_Q, CLAUSES = 16 };

static struct dice dice;
static struct lent lent;
static struct picture picture;
static struct model model;
static uint32_t palette[MOST_IDS];
static size_t ids;

/* Refusals by the clause that was broken first. */
static struct { const char *clause; uint64_t tables; } broken[CLAUSES];
static uint64_t damaged, damaged_but_sound, rearranged, cut_short, at_edge;

static void note_broken(const char *clause) {
    size_t i = 0;
    while (broken[i].clause && strcmp(broken[i].clause, clause) != 0) {
        i++;
    }
    broken[i].clause = clause;
    broken[i].tables++;
}

/* A sound table: as commands leave it, or with everything that is left open in any order. */
static void sound_table(size_t q) {
    ids = 1 + below(&dice, 2 * q);
    for (size_t i = 0; i < ids; i++) {
        palette[i] = below(&dice, 4) ? (uint32_t)below(&dice, 8) : (uint32_t)roll(&dice) | (below(&dice, 3) ? 0 : NONE);
    }
    size_t requests = below(&dice, 3) ? q - below(&dice, q / 4 + 1) : below(&dice, q + 1);
    picture_random(&picture, q, requests, palette, ids, &dice);
}

static uint32_t plausible(const uint32_t *t, size_t q) {
    const uint32_t values[] = {NONE, 0, 1, (uint32_t)q, (uint32_t)q - 1, (uint32_t)q + 1, t[below(&dice, words_of(q))], (uint32_t)roll(&dice)};
    size_t i = below(&dice, 12);
    return i < 8 ? values[i] : (uint32_t)below(&dice, q);
}

static void exchange(uint32_t *t, size_t a, size_t b, size_t n) {
    for (size_t i = 0; i < n; i++) {
        uint32_t x = t[a + i];
        t[a + i] = t[b + i];
        t[b + i] = x;
    }
}

static void exchange_rows(uint32_t *t, size_t q) {
    size_t a = below(&dice, q), b = below(&dice, q);
    switch (below(&dice, 4)) {
    case 0:
        exchange(t, item_at(a, 0), item_at(b, 0), ITEM_WORDS);
        break;
    case 1:
        exchange(t, client_at(q, a, 0), client_at(q, b, 0), CLIENT_WORDS);
        break;
    case 2:
        exchange(t, count_at(q, a + 1, 0), count_at(q, b + 1, 0), COUNT_WORDS);
        break;
    default:
        exchange(t, bucket_at(q, a), bucket_at(q, b), BUCKET_WORDS);
    }
}

/* One or two damages to the words. */
static void damage_words(uint32_t *t, size_t q) {
    size_t n = words_of(q);
    for (size_t times = 1 + below(&dice, 2); times > 0; times--) {
        size_t at = below(&dice, 4) ? below(&dice, n) : below(&dice, HEADER_WORDS);
        switch (below(&dice, 8)) {
        case 0:
            exchange(t, at, below(&dice, n), 1);
            break;
        case 1:
            exchange_rows(t, q);
            break;
        case 2:
            t[at] += below(&dice, 2) ? 1 : NONE;
            break;
        case 3:
            t[client_at(q, below(&dice, q), C_ID)] = t[client_at(q, below(&dice, q), C_ID)];
            break;
        case 4:
            t[at] ^= 1u << below(&dice, 32);
            break;
        default:
            t[at] = plausible(t, q);
        }
    }
}

/* Two blocks of these commands, or some bytes of them. */
static void choose_recording(struct ask *ask) {
    static uint8_t blocks[2 * BLOCK_BYTES];
    recording_block(blocks, ask->commands, 1 + below(&dice, 4), 0);
    recording_block(blocks + BLOCK_BYTES, ask->commands, 1 + below(&dice, 4), 1);
    ask->commands = blocks;
    ask->bytes = below(&dice, 4) ? sizeof blocks : below(&dice, sizeof blocks);
    ask->first = below(&dice, 8) == 0;
}

static struct ask choose_ask(enum call call) {
    static uint8_t commands[4 * COMMAND_BYTES];
    struct ask ask = {0};
    ask.call = call;
    ask.request.id = ids > 0 && below(&dice, 3) ? palette[below(&dice, ids)] : (uint32_t)roll(&dice);
    ask.request.ticket = (uint32_t)roll(&dice);
    ask.k = below(&dice, 4) ? below(&dice, model.places + 2) : SIZE_MAX;
    ask.out_words = below(&dice, 2) ? 2 * LARGEST_Q : below(&dice, 2 * model.places + 1);
    for (size_t i = 0; i < sizeof commands; i++) {
        commands[i] = (uint8_t)(i % COMMAND_BYTES == 0 ? 1 + below(&dice, 3) : 0);
    }
    ask.commands = commands;
    ask.bytes = below(&dice, sizeof commands + 1);
    ask.budget = below(&dice, 6);
    ask.day = (struct day){roll(&dice), 1, 2, 3, UINT64_MAX, UINT64_MAX - 1};
    if (call == REPLAY) {
        choose_recording(&ask);
    }
    return ask;
}

/* The words as lent against the test: a question and a step, each at random; what is accepted answers as the model does. */
static void compare_verdict(void) {
    uint32_t *t = lent.room + GUARD;
    uint32_t refused = refusal(t, lent.words);
    if (refused == 0) {
        picture_read(&picture, t, t[H_Q]);
        picture_model(&picture, &model);
    } else if (refused == 3 && t[H_Q] >= 1 && t[H_Q] <= LARGEST_Q && lent.words >= words_of(t[H_Q])) {
        note_broken(broken_clause(t, t[H_Q]));
    }
    struct ask question = choose_ask(HEAVIEST + (enum call)below(&dice, 5));
    compare_call(&lent, &model, refused, &question);
    const enum call steps[] = {ARRIVE, SLIDE, SERVE, RUN, RUN_DAY, REPLAY};
    struct ask step = choose_ask(steps[below(&dice, 6)]);
    compare_call(&lent, &model, refused, &step);
    if (refused == 0) {
        compare_table(&lent, &model);
    }
}

/* Sound however rows and chains lie: drawn, read back and drawn again alike, and accepted. */
static void rearranged_table(size_t q) {
    static uint32_t again[MOST_WORDS];
    if (below(&dice, 2)) {
        picture_rearrange(&picture, &dice);
    }
    uint32_t *t = lend(&lent, words_of(q));
    picture_draw(&picture, t);
    const char *clause = broken_clause(t, q);
    if (clause) {
        differ(clause, 0, 1);
    }
    picture_read(&picture, t, q);
    picture_draw(&picture, again);
    if (memcmp(t, again, words_of(q) * sizeof t[0]) != 0) {
        differ("read and drawn again", 0, 1);
    }
    rearranged++;
    compare_verdict();
}

static void damaged_table(size_t q) {
    size_t slack = below(&dice, MOST_SLACK + 1);
    bool spoil = below(&dice, 2);
    if (spoil) {
        picture_spoil(&picture, &dice);
    }
    uint32_t *t = lend(&lent, words_of(q) + slack);
    for (size_t i = 0; i < slack; i++) {
        t[words_of(q) + i] = (uint32_t)roll(&dice);
    }
    picture_draw(&picture, t);
    if (!spoil || below(&dice, 8) == 0) {
        damage_words(t, q);
    }
    damaged++;
    damaged_but_sound += refusal(t, lent.words) == 0;
    compare_verdict();
}

/* Fewer words than the table needs, with or without a damage besides. */
static void short_table(size_t q) {
    size_t need = words_of(q);
    size_t words = below(&dice, 2) ? need - 1 - below(&dice, need < 20 ? need : 20) : below(&dice, need);
    static uint32_t drawn[MOST_WORDS];
    picture_draw(&picture, drawn);
    if (below(&dice, 2)) {
        drawn[below(&dice, HEADER_WORDS)] = plausible(drawn, q);
    }
    memcpy(lend(&lent, words), drawn, words * sizeof drawn[0]);
    if (refusal(lent.room + GUARD, words) != 0) {
        cut_short++;
        compare_verdict();
    }
}

/* Room whose end nobody may touch: the first word that is out of reach. */
static uint32_t *out_of_reach;

static void make_edge(void) {
    size_t room = 32 * 4096;
    uint8_t *pages = mmap(NULL, 2 * room, PROT_READ | PROT_WRITE, MAP_PRIVATE | MAP_ANONYMOUS, -1, 0);
    if (pages == MAP_FAILED || mprotect(pages + room, room, PROT_NONE) != 0) {
        perror("mmap");
        exit(1);
    }
    out_of_reach = (uint32_t *)(void *)(pages + room);
}

/* The table ends where nothing may be touched, and more words are lent than it takes: a word read beyond it would end the program. */
static void table_at_edge(size_t q) {
    size_t need = words_of(q), lent_words = need + below(&dice, 1000);
    uint32_t *t = lend(&lent, need), *edge = out_of_reach - need;
    picture_draw(&picture, t);
    if (below(&dice, 2)) {
        size_t at = HEADER_WORDS + below(&dice, need - HEADER_WORDS);
        t[at] = plausible(t, q);
    }
    memcpy(edge, t, need * sizeof t[0]);
    uint32_t refused = refusal(t, need), id = palette[below(&dice, ids)];
    struct boomspool_counted counted = boomspool_count(edge, lent_words, id);
    struct boomspool_arrived arrived = boomspool_arrive(edge, lent_words, id, 1);
    struct boomspool_served served = boomspool_serve(edge, lent_words);
    struct boomspool_replayed replayed = boomspool_replay(edge, lent_words, NULL, 0, 0);
    boomspool_arrive(t, need, id, 1);
    boomspool_serve(t, need);
    if (counted.number != refused || arrived.number != refused || served.number != refused) {
        differ("at the edge: number", counted.number, refused);
    }
    if (replayed.stop != refused) {
        differ("at the edge: stop", replayed.stop, refused);
    }
    if (memcmp(edge, t, need * sizeof t[0]) != 0) {
        differ("at the edge: a word", 0, 1);
    }
    at_edge++;
}

static void report(void) {
    printf("damages: %" PRIu64 " damaged tables (%" PRIu64 " of them still sound), %" PRIu64 " rearranged, %" PRIu64 " cut short, %" PRIu64 " at the edge of memory; no difference\n",
           damaged, damaged_but_sound, rearranged, cut_short, at_edge);
    printf("  refused 3 by the clause broken first:");
    for (size_t i = 0; i < CLAUSES && broken[i].clause; i++) {
        printf("%s %s %" PRIu64, i ? "," : "", broken[i].clause, broken[i].tables);
    }
    printf("\n  refused: 2 %" PRIu64 ", 3 %" PRIu64 ", 4 %" PRIu64 ", 5 %" PRIu64 ", 6 %" PRIu64 "; calls", sums.numbers[2] + sums.stops[2] + sums.ends[2],
           sums.numbers[3] + sums.stops[3] + sums.ends[3], sums.numbers[4], sums.numbers[5], sums.numbers[6]);
    static const char *const names[CALLS] = {"arrive", "slide", "serve", "heaviest", "lightest", "count", "oldest", "newest", "run", "run with day record", "replay"};
    for (size_t c = 0; c < CALLS; c++) {
        printf(" %s %" PRIu64, names[c], sums.calls[c]);
    }
    printf("\n");
}

int main(int argc, char **argv) {
    size_t part = argc > 1 ? (size_t)atoi(argv[1]) : 100;
    make_edge();
    for (size_t s = 0; s < SHARES; s++) {
        size_t q = shares[s].q;
        for (size_t i = 0; i < shares[s].tables * part / 100 + 1; i++) {
            place = (struct place){"damages", "none", 1000000 * (q + 1) + i, q, i};
            dice.at = place.seed;
            model.places = q;
            sound_table(q);
            if (i % 8 == 0) {
                rearranged_table(q);
            } else if (i % 8 == 1) {
                short_table(q);
            } else if (i % 8 == 2) {
                table_at_edge(q);
            } else {
                damaged_table(q);
            }
        }
    }
    report();
    return 0;
}
