/* Recordings from C: every byte that the recorder writes, its refusals, and replays at once, in pieces and on refused tables. */
#include <stdio.h>
#include <string.h>

#include "evening.h"

_Static_assert(BOOMSPOOL_BLOCK_BYTES == BLOCK && BOOMSPOOL_BLOCK_COMMANDS == IN_BLOCK, "a block");
_Static_assert(BOOMSPOOL_MOST_BLOCKS == MOST_BLOCKS, "the most blocks");

static const struct boomspool_replayed NOTHING;

/* Whether the block is as expected, and what lies around it as it was. */
static int block_is(struct lent_bytes *block, const uint8_t *expected)
{
    const int same = memcmp(block->at, expected, BLOCK) == 0;
    memcpy((uint8_t *)block->lent.copy + (block->at - (uint8_t *)block->lent.words), block->at, BLOCK);
    return same && lent_same(&block->lent, 0) && lent_guarded(&block->lent);
}

/* The evening's commands one after the other, in a block that nobody cleared and that lies so: after each of them every byte of
 * it, and the file that a host makes of the blocks. */
static void in_turn(const char *part, enum lent_behind behind, size_t before_end)
{
    static uint8_t file[BYTES], expected[BYTES];
    struct lent_bytes block = lent_bytes_of(NULL, BLOCK, behind, before_end);
    memset(file, 0xEE, sizeof file);
    for (size_t n = 0; n < COMMANDS; n++) {
        check_case(part, n);
        CHECK(boomspool_record(block.at, n, commands[n].kind, commands[n].id, commands[n].ticket) == BOOMSPOOL_OK);
        const size_t bytes = write_out(expected, n + 1);
        CHECK(block_is(&block, expected + bytes - BLOCK));
        memcpy(file + BLOCK * (n / IN_BLOCK), block.at, BLOCK);
        CHECK(memcmp(file, expected, bytes) == 0);
    }
    lent_back(&block.lent);
    check_part(part);
}

/* One command after so many, in a block that holds such bytes: the earlier commands stay, whatever they are, and nothing else. */
static void recorded(uint64_t so_far, struct command c, int held)
{
    uint8_t expected[BLOCK];
    struct lent_bytes block = lent_bytes_of(NULL, BLOCK, NO_PAGE, 0);
    const size_t used = (size_t)(so_far % IN_BLOCK);
    memset(block.at, held, BLOCK);
    memset(expected, held, BLOCK);
    put_command(expected + COMMAND * used, c);
    finish(expected, used + 1, (size_t)(so_far / IN_BLOCK));
    CHECK(boomspool_record(block.at, so_far, c.kind, c.id, c.ticket) == BOOMSPOOL_OK);
    CHECK(block_is(&block, expected));
    lent_back(&block.lent);
}

static void anywhere(void)
{
    static const size_t NUMBERS[] = { 0, 1, 2, 255, 256, 257, 511, 4096, 32767, 32768, 65279, 65280, 65534, 65535 };
    static const int HELD[] = { 0, 1, 0x5A, 0xFF };
    for (size_t i = 0; i < sizeof NUMBERS / sizeof NUMBERS[0]; i++) {
        for (size_t so_far = IN_BLOCK * NUMBERS[i]; so_far < IN_BLOCK * (NUMBERS[i] + 1); so_far++) {
            check_case("recorded anywhere", so_far);
            for (size_t h = 0; h < sizeof HELD / sizeof HELD[0]; h++) {
                recorded(so_far, commands[(so_far + h) % COMMANDS], HELD[h]);
                recorded(so_far, (struct command){ ARRIVE, UINT32_MAX, UINT32_MAX }, HELD[h]);
            }
        }
    }
    check_part("recorded in blocks of any number, over any bytes");
}

/* A refused command writes nothing, and a bad one is refused as such also where there is no room. */
static void refuses(struct lent_bytes *block, uint64_t so_far, struct command c, uint32_t number)
{
    CHECK(boomspool_record(block->at, so_far, c.kind, c.id, c.ticket) == number);
    CHECK(lent_same(&block->lent, 0) && lent_guarded(&block->lent));
}

static void refusals(void)
{
    static const struct command BAD[] = {
        { 0, 0, 0 },     { 0, 1, 2 },          { 4, 0, 0 },          { 4, 1, 2 },          { 255, 1, 2 },
        { 256, 0, 0 },   { 257, 1, 2 },        { 258, 1, 2 },        { 259, 0, 0 },        { 0x01000001, 1, 2 },
        { UINT32_MAX, 1, 2 }, { 0x80000003, 0, 0 }, { SERVE, 1, 0 }, { SERVE, 0, 1 },      { SERVE, 0, 5 },
        { SERVE, 0x01000000, 0 }, { SERVE, 0, 0x80000000 }, { SERVE, UINT32_MAX, UINT32_MAX },
    };
    static const struct command GOOD[] = { { ARRIVE, 0, 0 }, { ARRIVE, 1, 2 }, { SLIDE, UINT32_MAX, UINT32_MAX }, { SERVE, 0, 0 } };
    static const uint64_t ROOM[] = { 0, 1, 55, 56, 57, 3670015 };
    static const uint64_t NO_ROOM[] = {
        3670016, 3670017, 3670072, (uint64_t)1 << 32, ((uint64_t)1 << 32) + 1, (uint64_t)56 << 32, (uint64_t)1 << 63,
        UINT64_MAX - 55, UINT64_MAX - 1, UINT64_MAX,
    };
    for (int behind = GUARDS; behind <= NO_PAGE; behind++) {
        struct lent_bytes block = lent_bytes_of(NULL, BLOCK, (enum lent_behind)behind, 0);
        for (size_t r = 0; r < sizeof ROOM / sizeof ROOM[0]; r++) {
            check_case("bad commands", r);
            for (size_t i = 0; i < sizeof BAD / sizeof BAD[0]; i++) {
                refuses(&block, ROOM[r], BAD[i], BOOMSPOOL_BAD_RECORDED);
            }
        }
        for (size_t r = 0; r < sizeof NO_ROOM / sizeof NO_ROOM[0]; r++) {
            check_case("all blocks are full", r);
            for (size_t i = 0; i < sizeof BAD / sizeof BAD[0]; i++) {
                refuses(&block, NO_ROOM[r], BAD[i], BOOMSPOOL_BAD_RECORDED);
            }
            for (size_t i = 0; i < sizeof GOOD / sizeof GOOD[0]; i++) {
                refuses(&block, NO_ROOM[r], GOOD[i], BOOMSPOOL_FULL);
            }
        }
        lent_back(&block.lent);
    }
    for (size_t i = 0; i < sizeof GOOD / sizeof GOOD[0]; i++) {
        check_case("the last command", i);
        recorded(3670015, GOOD[i], 0x5A);
    }
    check_part("refused commands");
}

/* What was recorded, after each command, leaves the words and totals that the single calls left. */
static void replayed(void)
{
    uint8_t block[BLOCK], file[BYTES];
    for (size_t n = 0; n < COMMANDS; n++) {
        const struct after *expected = &after[n + 1];
        check_case("replays of what was recorded", n);
        CHECK(boomspool_record(block, n, commands[n].kind, commands[n].id, commands[n].ticket) == BOOMSPOOL_OK);
        memcpy(file + BLOCK * (n / IN_BLOCK), block, BLOCK);
        const size_t bytes = BLOCK * (n / IN_BLOCK + 1);
        struct lent_bytes b = lent_bytes_of(file, bytes, n % 2 ? NO_PAGE : GUARDS, n % 2 ? 0 : n / 2 % 4);
        struct lent exact = lent_of(WORDS, NO_PAGE), longer = lent_of(WORDS + 9, GUARDS);
        CHECK(boomspool_lay_out(exact.words, exact.count, PLACES) == BOOMSPOOL_OK);
        CHECK(boomspool_lay_out(longer.words, longer.count, PLACES) == BOOMSPOOL_OK);
        struct boomspool_replayed r = boomspool_replay(exact.words, exact.count, b.at, bytes, 0);
        CHECK(reports(&r, BOOMSPOOL_ALL_DONE, &expected->sums));
        CHECK(memcmp(exact.words, expected->table, sizeof expected->table) == 0 && lent_guarded(&exact));
        r = boomspool_replay(longer.words, longer.count, b.at, bytes, 0);
        CHECK(reports(&r, BOOMSPOOL_ALL_DONE, &expected->sums) && lent_same(&longer, WORDS));
        CHECK(memcmp(longer.words, expected->table, sizeof expected->table) == 0 && lent_guarded(&longer));
        CHECK(lent_same(&b.lent, 0) && lent_guarded(&b.lent));
        lent_back(&b.lent);
        lent_back(&exact);
        lent_back(&longer);
    }
    check_part("replays of what was recorded");
}

/* The blocks from one to another as a piece, on a table that has been through those before: under another number 22 and nothing
 * done, under its own what single calls did. */
static void piece(size_t from, size_t to)
{
    static const uint64_t OTHER[] = { 1, 255, 256, MOST_BLOCKS, (uint64_t)1 << 32, UINT64_MAX };
    const struct after *before = after_blocks(from), *behind = after_blocks(to);
    struct lent_bytes b = lent_bytes_of(evening + BLOCK * from, BLOCK * (to - from), NO_PAGE, 0);
    for (size_t i = 0; i < sizeof OTHER / sizeof OTHER[0]; i++) {
        const struct boomspool_replayed r = boomspool_replay(table.words, table.count, b.at, BLOCK * (to - from), from + OTHER[i]);
        CHECK(reports(&r, BOOMSPOOL_WRONG_NUMBER, &NOTHING));
    }
    CHECK(memcmp(table.words, before->table, sizeof before->table) == 0);
    struct boomspool_replayed r = boomspool_replay(table.words, table.count, b.at, BLOCK * (to - from), from);
    r.blocks += before->sums.blocks;
    r.done += before->sums.done;
    r.joined += before->sums.joined;
    r.evicted += before->sums.evicted;
    r.passed += before->sums.passed;
    r.served += before->sums.served;
    r.turned += before->sums.turned;
    r.idle += before->sums.idle;
    CHECK(reports(&r, BOOMSPOOL_ALL_DONE, &behind->sums));
    CHECK(memcmp(table.words, behind->table, sizeof behind->table) == 0 && lent_guarded(&table));
    lent_back(&b.lent);
}

/* The evening in every set of pieces. */
static void pieces(void)
{
    for (size_t cuts = 0; cuts < (size_t)1 << (BLOCKS - 1); cuts++) {
        check_case("pieces", cuts);
        memcpy(table.words, after[0].table, sizeof after[0].table);
        for (size_t from = 0, to = 1; to <= BLOCKS; to++) {
            if (to == BLOCKS || (cuts >> (to - 1) & 1) != 0) {
                piece(from, to);
                from = to;
            }
        }
    }
    check_part("replays in pieces");
}

/* Bytes on a table in use that are to begin with that number: this stop, and nothing is done. */
static void stops(const uint8_t *bytes, size_t count, uint64_t first, uint32_t stop)
{
    memcpy(table.words, after[IN_BLOCK].table, sizeof after[IN_BLOCK].table);
    const struct boomspool_replayed r = boomspool_replay(table.words, table.count, bytes, count, first);
    CHECK(reports(&r, stop, &NOTHING));
    CHECK(memcmp(table.words, after[IN_BLOCK].table, sizeof after[IN_BLOCK].table) == 0);
}

/* No bytes are the end, whatever number would come first; a block has one number of two bytes, and there are no more blocks. */
static void first_numbers(void)
{
    static const uint64_t FIRST[] = { 0, 1, 65535, 65536, (uint64_t)1 << 32, UINT64_MAX };
    static const size_t NUMBERS[] = { 0, 1, 255, 256, 65535 };
    uint8_t blocks[2 * BLOCK];
    memcpy(blocks, evening, sizeof blocks);
    for (size_t i = 0; i < sizeof FIRST / sizeof FIRST[0]; i++) {
        check_case("first numbers", i);
        stops(NULL, 0, FIRST[i], BOOMSPOOL_ALL_DONE);
        stops(evening, 0, FIRST[i], BOOMSPOOL_ALL_DONE);
        stops(evening, BLOCK - 1, FIRST[i], BOOMSPOOL_SHORT_BLOCK);
        for (size_t n = 0; n < sizeof NUMBERS / sizeof NUMBERS[0]; n++) {
            finish(blocks, IN_BLOCK, NUMBERS[n]);
            if (NUMBERS[n] != FIRST[i]) {
                stops(blocks, sizeof blocks, FIRST[i], BOOMSPOOL_WRONG_NUMBER);
            }
            blocks[CHECK_AT] ^= 1;
            stops(blocks, sizeof blocks, FIRST[i], BOOMSPOOL_WRONG_CHECK);
        }
    }
    check_case("the last block, and one more", 0);
    finish(blocks, IN_BLOCK, MOST_BLOCKS - 1);
    finish(blocks + BLOCK, IN_BLOCK, 0);
    for (size_t more = 0; more <= 1; more++) {
        memcpy(table.words, after[0].table, sizeof after[0].table);
        const struct boomspool_replayed r = boomspool_replay(table.words, table.count, blocks, BLOCK * (1 + more), MOST_BLOCKS - 1);
        CHECK(reports(&r, more ? BOOMSPOOL_WRONG_NUMBER : BOOMSPOOL_ALL_DONE, &after[IN_BLOCK].sums));
        CHECK(memcmp(table.words, after[IN_BLOCK].table, sizeof after[IN_BLOCK].table) == 0);
    }
    check_part("first numbers");
}

/* A table's refusal comes before every test of the recording: nothing is written, and all other fields are 0. */
static void table_refuses(size_t count, size_t at, uint32_t value, uint32_t number)
{
    static const uint8_t DAMAGED[BLOCK] = { 1 };
    static const struct {
        const uint8_t *bytes;
        size_t count;
        uint64_t first;
    } LENT[] = {
        { evening, BYTES, 0 }, { evening, BYTES, UINT64_MAX }, { evening, BLOCK + 1, 0 },
        { evening, 1, 0 },     { DAMAGED, BLOCK, 0 },          { NULL, 0, 0 },
    };
    struct lent t = lent_of(count, NO_PAGE);
    boomspool_lay_out(t.words, t.count, PLACES);
    if (at < count) {
        t.words[at] = value;
    }
    lent_note(&t);
    for (size_t i = 0; i < sizeof LENT / sizeof LENT[0]; i++) {
        check_case("refused replays", i);
        const struct boomspool_replayed r = boomspool_replay(t.words, t.count, LENT[i].bytes, LENT[i].count, LENT[i].first);
        CHECK(reports(&r, number, &NOTHING) && lent_same(&t, 0) && lent_guarded(&t));
    }
    lent_back(&t);
}

static void table_refusals(void)
{
    table_refuses(0, 0, 0, BOOMSPOOL_SHORT);
    table_refuses(15, 0, 0, BOOMSPOOL_SHORT);
    table_refuses(WORDS, 0, 0, BOOMSPOOL_UNSOUND);
    table_refuses(WORDS, 1, 0, BOOMSPOOL_UNSOUND);
    table_refuses(WORDS, 1, PLACES + 1, BOOMSPOOL_SHORT);
    table_refuses(WORDS, 10, 1, BOOMSPOOL_UNSOUND);
    table_refuses(WORDS, 2, 1, BOOMSPOOL_UNSOUND);
    table_refuses(WORDS, WORDS - 1, 0, BOOMSPOOL_UNSOUND);
    const struct boomspool_replayed r = boomspool_replay(NULL, 0, evening, BYTES, 0);
    CHECK(reports(&r, BOOMSPOOL_SHORT, &NOTHING));
    check_part("refused replays");
}

int main(void)
{
    make_evening();
    in_turn("recorded in turn, at a page's end", NO_PAGE, 0);
    in_turn("recorded in turn, among guards", GUARDS, 0);
    in_turn("recorded in turn, at an odd byte", GUARDS, 3);
    anywhere();
    refusals();
    replayed();
    pieces();
    first_numbers();
    table_refusals();
    lent_back(&table);
    check_end();
    return 0;
}
