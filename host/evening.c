/* An evening of commands: its recording, and what single calls leave of it. */
#include "evening.h"

#include <string.h>

struct command commands[COMMANDS];
uint8_t evening[BYTES];
struct after after[COMMANDS + 1];
struct lent table;

const struct after *after_blocks(size_t blocks)
{
    return &after[blocks < BLOCKS ? blocks * IN_BLOCK : COMMANDS];
}

void put(uint8_t *at, uint32_t number, unsigned bytes)
{
    for (unsigned j = 0; j < bytes; j++) {
        at[j] = (uint8_t)(number >> 8 * j);
    }
}

void put_command(uint8_t *at, struct command c)
{
    at[0] = (uint8_t)c.kind;
    put(at + 1, c.id, 4);
    put(at + 5, c.ticket, 4);
}

void seal(uint8_t *block)
{
    uint32_t sum = 0;
    for (uint32_t place = 0; place < CHECK_AT; place++) {
        sum += (place + 1) * block[place];
    }
    put(block + CHECK_AT, sum, 4);
}

void finish(uint8_t *block, size_t used, size_t number)
{
    memset(block + COMMAND * used, 0, USED_AT - COMMAND * used);
    put(block + USED_AT, (uint32_t)used, 2);
    put(block + NUMBER_AT, (uint32_t)number, 2);
    seal(block);
}

size_t write_out(uint8_t *file, size_t count)
{
    const size_t blocks = (count + IN_BLOCK - 1) / IN_BLOCK;
    for (size_t i = 0; i < count; i++) {
        put_command(file + BLOCK * (i / IN_BLOCK) + COMMAND * (i % IN_BLOCK), commands[i]);
    }
    for (size_t b = 0; b < blocks; b++) {
        finish(file + BLOCK * b, b + 1 < blocks ? IN_BLOCK : count - IN_BLOCK * b, b);
    }
    return BLOCK * blocks;
}

/* One command as a single call, counted as a run counts it. */
static void call(uint32_t *words, struct command c, struct boomspool_replayed *sums)
{
    sums->done++;
    if (c.kind == ARRIVE) {
        const struct boomspool_arrived r = boomspool_arrive(words, WORDS, c.id, c.ticket);
        CHECK(r.number == BOOMSPOOL_OK);
        sums->joined += r.happened != BOOMSPOOL_TURNED_AWAY;
        sums->evicted += r.happened == BOOMSPOOL_EVICTED;
        sums->turned += r.happened == BOOMSPOOL_TURNED_AWAY;
    } else if (c.kind == SLIDE) {
        const struct boomspool_slid r = boomspool_slide(words, WORDS, c.id, c.ticket);
        CHECK(r.number == BOOMSPOOL_OK);
        sums->joined++;
        sums->passed += r.passed;
    } else {
        const struct boomspool_served r = boomspool_serve(words, WORDS);
        CHECK(r.number == BOOMSPOOL_OK || r.number == BOOMSPOOL_NOBODY);
        sums->served += r.number == BOOMSPOOL_OK;
        sums->idle += r.number == BOOMSPOOL_NOBODY;
    }
}

/* Document 01's session again and again, with other tickets each time. Behind it a client that waits evicts, then one that does
 * not, and where every count is 1 an absent client is turned away; serves of an empty window, ids and tickets of every size. */
static void choose_commands(void)
{
    static const struct command SOME[] = {
        { SERVE, 0, 0 },   { ARRIVE, 1, 10 }, { ARRIVE, 1, 11 }, { ARRIVE, 2, 12 }, { ARRIVE, 1, 13 },
        { ARRIVE, 3, 14 }, { ARRIVE, 1, 15 }, { ARRIVE, 2, 16 }, { SLIDE, 3, 17 },  { SERVE, 0, 0 },
        { ARRIVE, 3, 18 }, { ARRIVE, 2, 19 }, { ARRIVE, UINT32_MAX, UINT32_MAX },   { SLIDE, 0, 0 },
        { ARRIVE, 4, 20 }, { SERVE, 0, 0 },   { SERVE, 0, 0 },   { SERVE, 0, 0 },   { SLIDE, 0x01020304, 0xF0E0D0C0 },
        { SERVE, 0, 0 },   { SERVE, 0, 0 },
    };
    for (size_t i = 0; i < COMMANDS; i++) {
        commands[i] = SOME[i % (sizeof SOME / sizeof SOME[0])];
        commands[i].ticket += commands[i].kind == SERVE ? 0 : (uint32_t)(i * i);
    }
}

void make_evening(void)
{
    check_case("the evening", 0);
    choose_commands();
    CHECK(write_out(evening, COMMANDS) == BYTES);
    table = lent_of(WORDS, NO_PAGE);
    CHECK(boomspool_lay_out(after[0].table, WORDS, PLACES) == BOOMSPOOL_OK);
    for (size_t i = 0; i < COMMANDS; i++) {
        after[i + 1] = after[i];
        after[i + 1].sums.blocks = i / IN_BLOCK + 1;
        call(after[i + 1].table, commands[i], &after[i + 1].sums);
    }
    /* some of everything to be wrong about, worked out by hand: nine times those commands but for the very last serve */
    const struct boomspool_replayed *all = &after[COMMANDS].sums;
    CHECK(all->joined == 9 * 11 && all->evicted == 9 * 3 && all->passed == 9 * 2);
    CHECK(all->served == 9 * 6 - 1 && all->turned == 9 * 3 && all->idle == 9);
    check_part("the evening");
}

int reports(const struct boomspool_replayed *r, uint32_t stop, const struct boomspool_replayed *sums)
{
    return r->stop == stop && r->blocks == sums->blocks && r->done == sums->done && r->joined == sums->joined
        && r->evicted == sums->evicted && r->passed == sums->passed && r->served == sums->served && r->turned == sums->turned
        && r->idle == sums->idle;
}

void replays(const uint8_t *bytes, size_t count, uint32_t stop, size_t blocks)
{
    const struct after *expected = after_blocks(blocks);
    memcpy(table.words, after[0].table, sizeof after[0].table);
    const struct boomspool_replayed r = boomspool_replay(table.words, table.count, bytes, count, 0);
    CHECK(reports(&r, stop, &expected->sums));
    CHECK(memcmp(table.words, expected->table, sizeof expected->table) == 0);
}
