/* An evening of commands on a table of four places: its recording, written out here as document 02 says, and what single calls
 * leave of it. */
#ifndef EVENING_H
#define EVENING_H

#include "boomspool.h"
#include "check.h"

enum { PLACES = 4, WORDS = 80, COMMAND = 9, ARRIVE = 1, SLIDE = 2, SERVE = 3 };
enum { BLOCK = 512, IN_BLOCK = 56, USED_AT = 504, NUMBER_AT = 506, CHECK_AT = 508, MOST_BLOCKS = 65536 };
enum { COMMANDS = 3 * IN_BLOCK + 20, BLOCKS = 4, BYTES = BLOCKS * BLOCK };

struct command {
    uint32_t kind, id, ticket;
};

/* Words and totals after some commands. */
struct after {
    uint32_t table[WORDS];
    struct boomspool_replayed sums;
};

extern struct command commands[COMMANDS];
extern uint8_t evening[BYTES];            /* the recording of them all */
extern struct after after[COMMANDS + 1];  /* what single calls leave of the first so many, and of how many blocks they are */
const struct after *after_blocks(size_t blocks);
void make_evening(void);

void put(uint8_t *at, uint32_t number, unsigned bytes);
void put_command(uint8_t *at, struct command c);
/* Makes the check right. */
void seal(uint8_t *block);
/* Makes a block of the commands that stand there, of which so many are used. */
void finish(uint8_t *block, size_t used, size_t number);
/* Writes the recording of the first so many commands; how many bytes it has. */
size_t write_out(uint8_t *file, size_t count);

/* Whether a replay reports this stop and these totals. */
int reports(const struct boomspool_replayed *r, uint32_t stop, const struct boomspool_replayed *sums);
/* Checks a replay of these bytes on a fresh table: this stop, and exactly so many blocks of the evening stand. */
void replays(const uint8_t *bytes, size_t count, uint32_t stop, size_t blocks);
/* The table on which that was, laid out by the next one anew. */
extern struct lent table;

#endif
