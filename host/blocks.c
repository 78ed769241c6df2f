/* Blocks that are not as they were recorded, from C: altered, exchanged, cut, torn, left as zeros, or wrong in several ways. The
 * replay stops there, nothing of the block is carried out, and the blocks before it stand. */
#include <stdio.h>
#include <string.h>

#include "evening.h"

/* Each byte of a block made each other value, and each two unequal ones of the first 508 exchanged. */
static void altered(size_t at)
{
    struct lent_bytes b = lent_bytes_of(evening, BYTES, NO_PAGE, 0);
    uint8_t *block = b.at + BLOCK * at;
    for (size_t i = 0; i < BLOCK; i++) {
        check_case("a byte altered", BLOCK * at + i);
        for (unsigned more = 1; more < 256; more++) {
            block[i] = (uint8_t)(block[i] + more);
            replays(b.at, BYTES, BOOMSPOOL_WRONG_CHECK, at);
            block[i] = (uint8_t)(block[i] - more);
        }
    }
    for (size_t i = 0; i < CHECK_AT; i++) {
        check_case("two bytes exchanged", BLOCK * at + i);
        for (size_t j = 0; j < i; j++) {
            const uint8_t x = block[i], y = block[j];
            if (x != y) {
                block[i] = y;
                block[j] = x;
                replays(b.at, BYTES, BOOMSPOOL_WRONG_CHECK, at);
                block[i] = x;
                block[j] = y;
            }
        }
    }
    CHECK(lent_same(&b.lent, 0) && lent_guarded(&b.lent));
    lent_back(&b.lent);
}

/* A full block between others, and the last one, which is not full. */
static void alterations(void)
{
    altered(1);
    altered(BLOCKS - 1);
    check_part("bytes altered and exchanged");
}

/* The evening cut at each length. */
static void cuts(void)
{
    for (size_t count = 0; count <= BYTES; count++) {
        check_case("cut", count);
        struct lent_bytes b = lent_bytes_of(evening, count, NO_PAGE, 0);
        replays(b.at, count, count % BLOCK == 0 ? BOOMSPOOL_ALL_DONE : BOOMSPOOL_SHORT_BLOCK, count / BLOCK);
        CHECK(lent_same(&b.lent, 0));
        lent_back(&b.lent);
    }
    check_part("recordings cut short");
}

/* A last block left as zeros: its check is right, and only block 0 has that number. */
static void zeros(void)
{
    for (size_t at = 0; at < BLOCKS; at++) {
        check_case("a last block of zeros", at);
        struct lent_bytes b = lent_bytes_of(evening, BLOCK * (at + 1), NO_PAGE, 0);
        memset(b.at + BLOCK * at, 0, BLOCK);
        replays(b.at, BLOCK * (at + 1), at == 0 ? BOOMSPOOL_WRONG_USE : BOOMSPOOL_WRONG_NUMBER, at);
        lent_back(&b.lent);
    }
    check_part("a last block of zeros");
}

enum torn { OLD, NEW, NOTICED, OUTCOMES };

/* A file after a store of command n's block that was cut short: it replays as before or as after that command, or 20 or 21
 * notices the block. */
static enum torn outcome(const uint8_t *file, size_t bytes, size_t n)
{
    memcpy(table.words, after[0].table, sizeof after[0].table);
    const struct boomspool_replayed r = boomspool_replay(table.words, table.count, file, bytes, 0);
    const enum torn o = r.stop != BOOMSPOOL_ALL_DONE ? NOTICED : r.done == n ? OLD : NEW;
    const struct after *expected = o == NOTICED ? after_blocks(n / IN_BLOCK) : &after[o == OLD ? n : n + 1];
    CHECK(o != NOTICED || r.stop == (bytes % BLOCK != 0 ? BOOMSPOOL_SHORT_BLOCK : BOOMSPOOL_WRONG_CHECK));
    CHECK(reports(&r, r.stop, &expected->sums));
    CHECK(memcmp(table.words, expected->table, sizeof expected->table) == 0);
    return o;
}

/* The store of each command's block, cut after each number of bytes: over the block as it was; for the first command of a block
 * at the end of the file, and where the file had zeros. */
static void torn_stores(void)
{
    static uint8_t new[BYTES], file[BYTES];
    size_t met[OUTCOMES] = { 0 };
    for (size_t n = 0; n < COMMANDS; n++) {
        const size_t end = write_out(new, n + 1), from = end - BLOCK;
        for (size_t cut = 0; cut <= BLOCK; cut++) {
            check_case("torn stores", BLOCK * n + cut);
            memset(file, 0, sizeof file);
            write_out(file, n);
            memcpy(file + from, new + from, cut);
            if (n % IN_BLOCK != 0 || cut > 0) {
                met[outcome(file, end, n)]++;
            }
            if (n % IN_BLOCK == 0) {
                struct lent_bytes b = lent_bytes_of(file, from + cut, NO_PAGE, 0);
                met[outcome(b.at, from + cut, n)]++;
                lent_back(&b.lent);
            }
        }
    }
    CHECK(met[OLD] > 1000 && met[NEW] > 100 && met[NOTICED] > 1000);
    check_part("torn stores");
}

enum { CHECK_WRONG = 1, NUMBER_WRONG = 2, USE_WRONG = 4, COMMAND_WRONG = 8, ALL_WRONG = 15, VARIANTS = 400 };

/* Block `at` made anew with `used` commands and these wrongs; which byte or value is wrong goes by i. */
static void make_wrong(uint8_t *block, size_t at, size_t used, unsigned wrongs, size_t i)
{
    static const size_t NUMBERS[] = { 0, 1, 2, 255, 256, 65535 };
    static const uint32_t USED[] = { 0, 57, 58, 255, 256, 257, 312, 65535 };
    static const struct command BAD[] = { { 0, 0, 0 }, { 4, 0, 0 }, { 255, 1, 2 }, { SERVE, 1, 0 }, { SERVE, 0, 0x01000000 } };
    const size_t unused_at = COMMAND * used, unused = USED_AT - unused_at;
    const size_t commands_at[] = { 0, used - 1, i % used }, bytes_at[] = { unused_at, USED_AT - 1, unused_at + 11 * i % unused };
    memcpy(block, evening, BLOCK);
    if (wrongs & COMMAND_WRONG) {
        put_command(block + COMMAND * commands_at[i % 3], BAD[i % 5]);
    }
    finish(block, used, wrongs & NUMBER_WRONG ? NUMBERS[i % 6] + (NUMBERS[i % 6] == at ? 256 : 0) : at);
    if (wrongs & USE_WRONG && i % 2 == 0) {
        put(block + USED_AT, USED[i / 2 % 8], 2);
    } else if (wrongs & USE_WRONG) {
        block[bytes_at[i % 3]] = (uint8_t)(1 + i % 255);
    }
    seal(block);
    if (wrongs & CHECK_WRONG) {
        block[CHECK_AT + i % 4] ^= (uint8_t)(1 << i % 8);
    }
}

/* Wrong in several ways, the check made right again where it is not one of them: the first test that fails is the stop. */
static void several_wrongs(void)
{
    struct lent_bytes b = lent_bytes_of(evening, BYTES, NO_PAGE, 0);
    for (unsigned wrongs = 1; wrongs <= ALL_WRONG; wrongs++) {
        const uint32_t stop = wrongs & CHECK_WRONG ? BOOMSPOOL_WRONG_CHECK
            : wrongs & NUMBER_WRONG                ? BOOMSPOOL_WRONG_NUMBER
            : wrongs & USE_WRONG                   ? BOOMSPOOL_WRONG_USE
                                                   : BOOMSPOOL_BAD_RECORDED;
        for (size_t at = 0; at < BLOCKS; at++) {
            for (size_t i = 0; i < VARIANTS; i++) {
                check_case("several wrongs", (wrongs * BLOCKS + at) * VARIANTS + i);
                make_wrong(b.at + BLOCK * at, at, 1 + 7 * i % (IN_BLOCK - 1), wrongs, i);
                replays(b.at, BYTES, stop, at);
            }
            memcpy(b.at + BLOCK * at, evening + BLOCK * at, BLOCK);
        }
    }
    lent_back(&b.lent);
    check_part("blocks wrong in several ways");
}

int main(void)
{
    make_evening();
    replays(evening, BYTES, BOOMSPOOL_ALL_DONE, BLOCKS);
    alterations();
    cuts();
    zeros();
    torn_stores();
    several_wrongs();
    CHECK(lent_guarded(&table));
    lent_back(&table);
    check_end();
    return 0;
}
