/* The limiter's calls for C and C++: link libboomspool.a. docs/HOST.md is the guide, host/example.c a small host.
 *
 * A table is lent as a pointer and its number of 32-bit words; words beyond what the table needs are neither read nor
 * written. NULL goes with length 0 alone. Every call may be given any words and any numbers: what it cannot work on it
 * refuses with a number, and then writes nothing. What nothing here can check is yours: each pointer is valid for the
 * length beside it, buffers lent to one call do not overlap, and nobody else writes them meanwhile.
 *
 * Alignment: tables and outputs are words of 4 bytes, aligned as uint32_t; the day record as uint64_t; commands, blocks and
 * recordings are bytes.
 *
 * Cost: every call but words, lay-out and record first checks the whole table, which is nearly all of the time of a single
 * call. A run or a replay checks it once for all its commands, but reports totals; single calls name the request that left.
 * Clients whose ids share a bucket make the check and the search for a client slower (HOST, 'What a call costs').
 */
#ifndef BOOMSPOOL_H
#define BOOMSPOOL_H

#include <stddef.h>
#include <stdint.h>

/* The number of this header: it rises with each landing that changes it. */
#define BOOMSPOOL_VERSION 3

/* A recording is a file of blocks. Each has 56 commands of 9 bytes, as a run takes them; at byte 504 how many of them are used
 * (1 to 56; the bytes of the others are 0), at 506 the block's number from 0, two bytes each; at 508 the check in four, which
 * is the sum over the first 508 bytes of (place + 1) * byte, places from 0. Lowest byte first throughout. */
#define BOOMSPOOL_BLOCK_BYTES 512
#define BOOMSPOOL_BLOCK_COMMANDS 56
#define BOOMSPOOL_MOST_BLOCKS 65536

#ifdef __cplusplus
extern "C" {
#endif

/* The refusal numbers: the field `number` of each reply, and what boomspool_lay_out and boomspool_record return. */
enum boomspool_number {
    BOOMSPOOL_OK = 0,
    BOOMSPOOL_PLACES = 1,       /* lay-out: places is 0 or over 1,000 */
    BOOMSPOOL_SHORT = 2,        /* under 16 words, or fewer than the table takes */
    BOOMSPOOL_UNSOUND = 3,      /* the words are no sound table */
    BOOMSPOOL_OUTPUT = 4,       /* the output has too few words for the pairs */
    BOOMSPOOL_NOBODY = 5,       /* serve: nobody waits */
    BOOMSPOOL_NO_CLIENT = 6,    /* oldest, newest: no request of that client waits */
    BOOMSPOOL_FULL = 18,        /* record: all 65,536 blocks are full */
    BOOMSPOOL_BAD_RECORDED = 24 /* record: an unknown kind, or serve with an id or a ticket that is not 0. A replay's stop too */
};

/* What an arrival came to: the field `happened`, 0 where the call was refused. */
enum boomspool_happened {
    BOOMSPOOL_JOINED = 1,
    BOOMSPOOL_EVICTED = 2,
    BOOMSPOOL_TURNED_AWAY = 3
};

/* The replies. `number` is 0 or the refusal; every other field is 0 where there is nothing to give. Id and ticket may
 * themselves be 0 or any other number, so go by `number`, `happened` and `passed`, and never by them. */
struct boomspool_arrived {
    uint32_t number;
    uint32_t happened;
    uint32_t id; /* of the request that left, where happened is BOOMSPOOL_EVICTED */
    uint32_t ticket;
};

struct boomspool_slid {
    uint32_t number;
    uint32_t passed; /* 1 where a request left, 0 where none did */
    uint32_t id;     /* of that request */
    uint32_t ticket;
};

struct boomspool_served {
    uint32_t number;
    uint32_t id;
    uint32_t ticket;
};

struct boomspool_listed {
    uint32_t number;
    size_t pairs; /* written to the output, two words each */
};

struct boomspool_counted {
    uint32_t number;
    uint32_t count;
};

struct boomspool_told {
    uint32_t number;
    uint32_t ticket;
};

/* Where a run stopped: the field `stop`. A run that is refused has BOOMSPOOL_SHORT or BOOMSPOOL_UNSOUND there. */
enum boomspool_stop {
    BOOMSPOOL_ALL_DONE = 0,     /* no bytes are left */
    BOOMSPOOL_BUDGET_SPENT = 1, /* bytes are left, and as many commands as the budget were carried out */
    BOOMSPOOL_CUT_SHORT = 7,    /* under 9 bytes are left */
    BOOMSPOOL_BAD_COMMAND = 8   /* an unknown kind, or serve with an id or a ticket that is not 0 */
};

/* Where a replay stopped: the field `stop`, BOOMSPOOL_ALL_DONE where no bytes are left. A replay that is refused has
 * BOOMSPOOL_SHORT or BOOMSPOOL_UNSOUND there. Else it is the first of these tests that a block fails; the last test is that of
 * its commands, BOOMSPOOL_BAD_RECORDED. */
enum boomspool_block {
    BOOMSPOOL_SHORT_BLOCK = 20,  /* under 512 bytes are left */
    BOOMSPOOL_WRONG_CHECK = 21,  /* the check is not that of the block's bytes */
    BOOMSPOOL_WRONG_NUMBER = 22, /* the block has not the number that comes next */
    BOOMSPOOL_WRONG_USE = 23     /* the number of commands is 0 or over 56, or an unused command byte is not 0 */
};

/* What a run reports. The command at which it stopped, counted from 0, is `done`. */
struct boomspool_ran {
    uint32_t stop;
    uint64_t done;    /* commands carried out */
    uint64_t joined;  /* requests that joined, by arrive or slide */
    uint64_t evicted; /* requests that left for an arrival */
    uint64_t passed;  /* requests that left by slide */
    uint64_t served;  /* requests that left by serve */
    uint64_t turned;  /* arrivals that were turned away */
    uint64_t idle;    /* serves where nobody waited */
};

/* What a replay reports. The block at which it stopped is the one that should have the number `first` + `blocks`. */
struct boomspool_replayed {
    uint32_t stop;
    uint64_t blocks; /* blocks replayed */
    uint64_t done;   /* commands carried out; then the totals, as a run counts them */
    uint64_t joined;
    uint64_t evicted;
    uint64_t passed;
    uint64_t served;
    uint64_t turned;
    uint64_t idle;
};

/* The host's day record: the totals of its runs, each of which stays at its largest value once there. */
struct boomspool_day {
    uint64_t joined;
    uint64_t evicted;
    uint64_t passed;
    uint64_t served;
    uint64_t turned;
    uint64_t idle;
};

/* The words that a table of that many places takes, 16 + 16 * places; 0 where places is 0 or over 1,000.
 * It refuses nothing. */
size_t boomspool_words(size_t places);

/* Makes the first boomspool_words(places) words an empty table, whatever they held.
 * Returns 0, or 1 where places is 0 or over 1,000, or 2 where there are fewer words than that. */
uint32_t boomspool_lay_out(uint32_t *table, size_t words, size_t places);

/* A request arrives. It joins at the back (1). Or the window is full: then its client is turned away (3) where its count plus
 * one is at least the largest count, an absent client having 0, which alters nothing and is no refusal; else the newest
 * request of the heaviest client leaves for it (2), named in the reply. That client has another one, and still waits.
 * Refusals: 2, 3. */
struct boomspool_arrived boomspool_arrive(uint32_t *table, size_t words, uint32_t id, uint32_t ticket);

/* A request joins at the back; where the window is full, the front request leaves first, and the reply names it.
 * Refusals: 2, 3. */
struct boomspool_slid boomspool_slide(uint32_t *table, size_t words, uint32_t id, uint32_t ticket);

/* The front request, the one that has waited longest, leaves and is the reply.
 * Refusals: 2, 3, and 5 where nobody waits. */
struct boomspool_served boomspool_serve(uint32_t *table, size_t words);

/* Writes id and count of min(k, clients) clients, heaviest first: of equal counts, the one first that has had its count
 * longest. The output's other words stay. k may be SIZE_MAX. The table is only read.
 * Refusals: 2, 3, and 4 where the output has under 2 * min(k, clients) words. */
struct boomspool_listed boomspool_heaviest(const uint32_t *table, size_t words, size_t k, uint32_t *output, size_t output_words);

/* The same, lightest first: the exact reverse order. Refusals: 2, 3, 4. */
struct boomspool_listed boomspool_lightest(const uint32_t *table, size_t words, size_t k, uint32_t *output, size_t output_words);

/* How many requests of that client wait: 0 for an absent one, which is no refusal. Refusals: 2, 3. */
struct boomspool_counted boomspool_count(const uint32_t *table, size_t words, uint32_t id);

/* The ticket of that client's oldest waiting request. Refusals: 2, 3, and 6 where none of its requests waits. */
struct boomspool_told boomspool_oldest(const uint32_t *table, size_t words, uint32_t id);

/* The ticket of its newest waiting request. Refusals: 2, 3, 6. */
struct boomspool_told boomspool_newest(const uint32_t *table, size_t words, uint32_t id);

/* Carries out commands of 9 bytes, at most as many as the budget: kind (1 arrive, 2 slide, 3 serve), then id and ticket,
 * lowest byte first, both 0 for serve. The table is checked once. Commands before the stop stand.
 * Stops: 0, 1, 7, 8. Refusals: 2 and 3, with all other fields 0 and nothing written. */
struct boomspool_ran boomspool_run(uint32_t *table, size_t words, const uint8_t *commands, size_t bytes, uint64_t budget);

/* The same, and adds the six totals to the day record, which is no NULL. A run that is refused leaves it. */
struct boomspool_ran boomspool_run_day(uint32_t *table, size_t words, const uint8_t *commands, size_t bytes, uint64_t budget,
                                       struct boomspool_day *day);

/* Records a command, where the recording has `recorded` commands so far: kind (1 arrive, 2 slide, 3 serve), id and ticket, both
 * 0 for serve. The block is the one in the making, exactly 512 bytes and no NULL. The call leaves it as it belongs in the file
 * at byte 512 * (recorded / 56): the earlier commands of that block as they are, this one, zeros, the numbers and the check. The
 * first command of a block wipes what was there. Returns 0, or 24 where that is no command, or 18 where all blocks are full. */
uint32_t boomspool_record(uint8_t block[BOOMSPOOL_BLOCK_BYTES], uint64_t recorded, uint32_t kind, uint32_t id, uint32_t ticket);

/* Carries out the commands of a recording, block after block, of which the first must have the number `first`: 0 for a whole
 * recording, more for a later piece of whole blocks. All tests of a block come before any of its commands; blocks before the
 * stop stand. The table is checked once. A recording replays under the rule in force at the replay.
 * Stops: 0, and 20 to 24 in this order. Refusals: 2 and 3, with all other fields 0 and nothing written. */
struct boomspool_replayed boomspool_replay(uint32_t *table, size_t words, const uint8_t *recording, size_t bytes, uint64_t first);

#ifdef __cplusplus
}
#endif

#endif
