/* Drives the archive's recorder and replay beside the model of document 02 and compares every byte, every report and the words: on
 * recordings short and long, at once and in pieces, and on damaged ones. */
#include "boomspool.h"
#include "calls.h"
#include "picture.h"
#include "recording.h"
#include "spoil.h"
#include <inttypes.h>
#include <stdio.h>
#include <stdlib.h>
#include <string.h>
#include <sys/mman.h>

#define MOST_COMMANDS ((uint64_t)BLOCK_COMMANDS * MOST_BLOCKS)

/* How many recordings for a Q, as they were written and damaged, and the most blocks of the former. */
struct share { size_t q, evenings, blocks, damaged; };
static const struct share shares[] = {
    {1, 60, 40, 16000}, {2, 60, 40, 20000},  {3, 60, 40, 24000},  {4, 60, 60, 30000}, {5, 60, 60, 24000},
    {16, 40, 100, 8000}, {64, 20, 200, 2000}, {256, 6, 300, 200}, {1000, 3, 300, 40},
};
/* In each hundredth of the whole: commands recorded in turn and anywhere. And how often each stop must have been met at least. */
enum { SHARES = sizeof shares / sizeof shares[0], IN_TURN = 1000, ANYWHERE = 3000, LEAST_MET = 10, PAD = 16 };

static struct dice dice;
static struct lent lent;
static struct model model;
static struct palette palette;
static struct recording recording;
static uint64_t recorded_well, refused_24, refused_18, evenings, pieces, damaged;

/* Bytes of recordings that end where nobody may touch anything. */
static uint8_t *out_of_reach;

static void make_edge(void) {
    size_t room = (size_t)BLOCK_BYTES * (MOST_BLOCKS + 8);
    uint8_t *pages = mmap(NULL, room + 4096, PROT_READ | PROT_WRITE, MAP_PRIVATE | MAP_ANONYMOUS, -1, 0);
    if (pages == MAP_FAILED || mprotect(pages + room, 4096, PROT_NONE) != 0) {
        perror("mmap");
        exit(1);
    }
    out_of_reach = pages + room;
}

static void begin(const char *test, uint64_t seed, size_t q) {
    place = (struct place){test, "none", seed, q, 0};
    dice.at = seed;
    random_palette(&palette, q, &dice);
}

/* The archive's block and the model's, with guards around them and at any byte. */
static uint8_t ours[PAD + BLOCK_BYTES + PAD], theirs[PAD + BLOCK_BYTES + PAD];
static size_t offset;

static uint32_t compare_record(uint64_t recorded, struct wish w) {
    uint32_t expected = recording_add(theirs + offset, recorded, w);
    uint32_t number = boomspool_record(ours + offset, recorded, w.kind, w.id, w.ticket);
    if (number != expected) {
        differ("record: number", number, expected);
    }
    if (memcmp(ours, theirs, sizeof ours) != 0) {
        size_t i = 0;
        while (ours[i] == theirs[i]) {
            i++;
        }
        printf("byte %zu of the block after %" PRIu64 " commands\n", i - offset, recorded);
        differ("record: byte", ours[i], theirs[i]);
    }
    recorded_well += number == 0;
    refused_24 += number == 24;
    refused_18 += number == 18;
    return number;
}

static void fresh_block(void) {
    for (size_t i = 0; i < sizeof ours; i++) {
        ours[i] = theirs[i] = (uint8_t)roll(&dice);
    }
    offset = below(&dice, 2 * PAD + 1);
}

/* Commands one after the other, good and bad, from nothing or from anywhere. */
static void record_in_turn(size_t times) {
    uint64_t recorded = 0;
    for (size_t i = 0; i < times; i++) {
        place.step = i;
        if (i % 500 == 0) {
            fresh_block();
            recorded = below(&dice, 2) ? 0 : below(&dice, 2) ? below(&dice, MOST_COMMANDS) : MOST_COMMANDS - below(&dice, 400);
        }
        struct wish w = random_command(&palette, &dice);
        recorded += compare_record(recorded, below(&dice, 8) ? w : spoil_command(w, &dice)) == 0;
    }
}

/* Single commands in blocks that hold anything, after any number of commands. */
static void record_anywhere(size_t times) {
    for (size_t i = 0; i < times; i++) {
        const uint64_t from[] = {0, BLOCK_COMMANDS, BLOCK_COMMANDS * 256, MOST_COMMANDS, (uint64_t)1 << 32, roll(&dice), 0};
        uint64_t recorded = from[below(&dice, 7)] + below(&dice, 130) - 65;
        place.step = i;
        fresh_block();
        struct wish w = random_command(&palette, &dice);
        compare_record(below(&dice, 2) ? below(&dice, MOST_COMMANDS) : recorded, below(&dice, 4) ? w : spoil_command(w, &dice));
    }
}

/* A fresh table of that Q, or any sound one. */
static void fresh_table(size_t q, bool any) {
    static struct picture picture;
    size_t slack = below(&dice, MOST_SLACK + 1);
    uint32_t *t = lend(&lent, words_of(q) + slack);
    memset(t + words_of(q), 0x5A, slack * sizeof t[0]);
    if (any) {
        picture_random(&picture, q, below(&dice, q + 1), palette.id, palette.ids, &dice);
        picture_draw(&picture, t);
        picture_model(&picture, &model);
    } else {
        boomspool_lay_out(t, lent.words, q);
        model_empty(&model, q);
    }
}

static void replay(const uint8_t *bytes, size_t length, uint64_t first) {
    struct ask ask = {.call = REPLAY, .commands = length ? bytes : NULL, .bytes = length, .first = first};
    compare_call(&lent, &model, 0, &ask);
}

/* At once, and then again in pieces of whole blocks, which leave the same words. */
static void replay_both_ways(const uint8_t *bytes, size_t blocks, size_t most) {
    static struct lent start, end;
    static struct model start_model;
    start = lent;
    start_model = model;
    replay(bytes, BLOCK_BYTES * blocks, 0);
    compare_table(&lent, &model);
    end = lent;
    lent = start;
    model = start_model;
    for (size_t from = 0; from < blocks; pieces++) {
        size_t piece = below(&dice, most + 1);
        piece = piece < blocks - from ? piece : blocks - from;
        replay(bytes + BLOCK_BYTES * from, BLOCK_BYTES * piece, from);
        from += piece;
    }
    if (memcmp(lent.room, end.room, (GUARD + lent.words + GUARD) * sizeof lent.room[0]) != 0) {
        differ("in pieces: a word", 0, 1);
    }
}

/* What the recorder makes of the commands from one on, the first of a block, up to another: stored as a server stores it. */
static void write_evening(uint8_t *file, uint64_t from, uint64_t to) {
    fresh_block();
    for (uint64_t recorded = from; recorded < to; recorded++) {
        if (compare_record(recorded, random_command(&palette, &dice)) != 0) {
            differ("record: number", 1, 0);
        }
        memcpy(file + BLOCK_BYTES * (recorded / BLOCK_COMMANDS), ours + offset, BLOCK_BYTES);
    }
}

static void evening(const struct share *share, uint64_t seed) {
    begin("evenings", seed, share->q);
    size_t blocks = below(&dice, 4) ? below(&dice, share->blocks + 1) : below(&dice, 3);
    size_t commands = blocks ? BLOCK_COMMANDS * blocks - below(&dice, BLOCK_COMMANDS) : 0;
    uint8_t *file = out_of_reach - BLOCK_BYTES * blocks;
    write_evening(file, 0, commands);
    fresh_table(share->q, below(&dice, 2));
    replay_both_ways(file, blocks, 1 + below(&dice, blocks + 1));
    evenings++;
}

/* As many blocks as there can be, and one more, which no number fits. The model writes most blocks at once; the recorder goes on
 * from there and is refused at the end. */
static void longest(size_t q, uint64_t seed, size_t blocks) {
    uint8_t *file = out_of_reach - BLOCK_BYTES * (blocks + 1), commands[USED_AT];
    begin("longest", seed, q);
    for (size_t b = 0; b <= blocks; b++) {
        for (size_t i = 0; i < BLOCK_COMMANDS; i++) {
            recording_command(commands + COMMAND_BYTES * i, random_command(&palette, &dice));
        }
        recording_block(file + BLOCK_BYTES * b, commands, BLOCK_COMMANDS, b);
    }
    write_evening(file, (uint64_t)BLOCK_COMMANDS * (blocks - blocks / 50), (uint64_t)BLOCK_COMMANDS * blocks);
    if (blocks == MOST_BLOCKS && compare_record(MOST_COMMANDS, random_command(&palette, &dice)) != 18) {
        differ("record: number", 0, 18);
    }
    fresh_table(q, false);
    replay_both_ways(file, blocks + 1, 1 + blocks / 3);
    evenings++;
}

static void damaged_recording(size_t q, uint64_t seed) {
    begin("damaged recordings", seed, q);
    random_recording(&recording, &palette, &dice);
    place.mix = spoil_recording(&recording, (size_t)(seed % SPOILS), &palette, &dice);
    uint8_t *bytes = out_of_reach - recording.length;
    memcpy(bytes, recording.bytes, recording.length);
    bool any = below(&dice, 8) == 0;
    fresh_table(q, any);
    replay(bytes, recording.length, recording.first);
    if (any) {
        compare_table(&lent, &model);
    }
    if (memcmp(bytes, recording.bytes, recording.length) != 0) {
        differ("a byte of the recording is altered", 0, 1);
    }
    damaged++;
}

static const uint32_t stops[] = {0, 20, 21, 22, 23, 24};

static void report(const uint64_t *whole, size_t part) {
    printf("recordings: %" PRIu64 " commands recorded, refused 24: %" PRIu64 ", 18: %" PRIu64 "; %" PRIu64 " evenings at once and in %" PRIu64 " pieces, %" PRIu64 " damaged recordings; no difference\n",
           recorded_well, refused_24, refused_18, evenings, pieces, damaged);
    printf("  replayed: %" PRIu64 " blocks, %" PRIu64 " commands; damaged recordings of %d kinds stopped with", sums.blocks, sums.commands_in_replays, SPOILS);
    for (size_t i = 0; i < sizeof stops / sizeof stops[0]; i++) {
        printf("%s %" PRIu32 ": %" PRIu64, i ? "," : "", stops[i], sums.ends[stops[i]] - whole[stops[i]]);
    }
    printf("\n");
    for (size_t i = 0; i < sizeof stops / sizeof stops[0]; i++) {
        if (sums.ends[stops[i]] - whole[stops[i]] < LEAST_MET * part) {
            printf("recordings: FAILED: stop %" PRIu32 " was not met %zu times\n", stops[i], LEAST_MET * part);
            exit(1);
        }
    }
}

/* `part` in a hundred of the whole. */
int main(int argc, char **argv) {
    size_t part = argc > 1 ? (size_t)atoi(argv[1]) : 100;
    uint64_t seed = 1, whole[sizeof sums.ends / sizeof sums.ends[0]];
    make_edge();
    begin("recorder", seed++, 4);
    record_in_turn(IN_TURN * part);
    record_anywhere(ANYWHERE * part);
    for (size_t s = 0; s < SHARES; s++) {
        for (size_t i = 0; i < shares[s].evenings * part / 100 + 1; i++) {
            evening(&shares[s], seed++);
        }
    }
    longest(1, seed++, MOST_BLOCKS * part / 100);
    longest(4, seed++, MOST_BLOCKS * part / 100);
    longest(64, seed++, MOST_BLOCKS * part / 100);
    memcpy(whole, sums.ends, sizeof whole);
    for (size_t s = 0; s < SHARES; s++) {
        for (size_t i = 0; i < shares[s].damaged * part / 100 + 1; i++) {
            damaged_recording(shares[s].q, 1000000 * (shares[s].q + 1) + i);
        }
    }
    report(whole, part);
    return 0;
}
