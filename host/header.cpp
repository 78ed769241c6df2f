// The header as C++17: its functions link by their C names, and its structs lie as the archive has them.
#include "boomspool.h"

static_assert(sizeof(boomspool_arrived) == 16 && offsetof(boomspool_arrived, ticket) == 12, "arrived");
static_assert(sizeof(boomspool_slid) == 16 && offsetof(boomspool_slid, ticket) == 12, "slid");
static_assert(sizeof(boomspool_served) == 12 && offsetof(boomspool_served, ticket) == 8, "served");
static_assert(sizeof(boomspool_listed) == 16 && offsetof(boomspool_listed, pairs) == 8, "listed");
static_assert(sizeof(boomspool_counted) == 8 && offsetof(boomspool_counted, count) == 4, "counted");
static_assert(sizeof(boomspool_told) == 8 && offsetof(boomspool_told, ticket) == 4, "told");
static_assert(sizeof(boomspool_ran) == 64 && offsetof(boomspool_ran, done) == 8 && offsetof(boomspool_ran, idle) == 56, "ran");
static_assert(sizeof(boomspool_replayed) == 72 && offsetof(boomspool_replayed, blocks) == 8, "replayed");
static_assert(offsetof(boomspool_replayed, done) == 16 && offsetof(boomspool_replayed, idle) == 64, "replayed");
static_assert(sizeof(boomspool_day) == 48 && alignof(boomspool_day) == alignof(uint64_t), "day");
static_assert(offsetof(boomspool_day, joined) == 0 && offsetof(boomspool_day, evicted) == 8 && offsetof(boomspool_day, passed) == 16, "day");
static_assert(offsetof(boomspool_day, served) == 24 && offsetof(boomspool_day, turned) == 32 && offsetof(boomspool_day, idle) == 40, "day");
static_assert(BOOMSPOOL_VERSION >= 2, "version");

int main()
{
    uint32_t table[32];
    if (boomspool_words(1) != 32 || boomspool_lay_out(table, 32, 1) != BOOMSPOOL_OK) {
        return 1;
    }
    const boomspool_arrived joined = boomspool_arrive(table, 32, 7, 70);
    if (joined.number != BOOMSPOOL_OK || joined.happened != BOOMSPOOL_JOINED) {
        return 1;
    }
    const boomspool_slid slid = boomspool_slide(table, 32, 8, 80);
    if (slid.passed != 1 || slid.id != 7 || slid.ticket != 70) {
        return 1;
    }
    uint8_t block[BOOMSPOOL_BLOCK_BYTES];
    if (boomspool_record(block, 0, 3, 0, 0) != BOOMSPOOL_OK || boomspool_record(block, 1, 1, 9, 90) != BOOMSPOOL_OK) {
        return 1;
    }
    const boomspool_replayed replayed = boomspool_replay(table, 32, block, sizeof block, 0);
    if (replayed.stop != BOOMSPOOL_ALL_DONE || replayed.blocks != 1 || replayed.done != 2 || replayed.served != 1) {
        return 1;
    }
    return boomspool_oldest(table, 32, 9).ticket == 90 ? 0 : 1;
}
