/* One call of the archive beside the plain model: every number of the reply and every lent word is compared. */
#ifndef CALLS_H
#define CALLS_H
#include "model.h"
#include "random.h"
#include "words.h"

enum { GUARD = 8, MOST_SLACK = 4, MOST_OUT_WORDS = 2 * LARGEST_Q + 8 };

/* A table as it is lent: guard words on both sides of the words, which may be more than the table's. */
struct lent { size_t words; uint32_t room[GUARD + MOST_WORDS + MOST_SLACK + GUARD]; };

enum call { ARRIVE, SLIDE, SERVE, HEAVIEST, LIGHTEST, COUNT, OLDEST, NEWEST, RUN, RUN_DAY, REPLAY, CALLS };

struct ask {
    enum call call;
    struct request request;
    size_t k, out_words;
    const uint8_t *commands; /* or a recording */
    size_t bytes;
    uint64_t budget;
    struct day day;
    uint64_t first;
};

/* Where a difference is found: printed with it. */
struct place { const char *test, *mix; uint64_t seed; size_t q, step; };
extern struct place place;

/* What has been compared. */
struct sums { uint64_t calls[CALLS], commands_in_runs, numbers[10], stops[10], events[6], most_altered, blocks, commands_in_replays, ends[25]; };
extern struct sums sums;

/* Says what differs and where, and ends the program. */
void differ(const char *what, uint64_t ours, uint64_t theirs);

/* Fills the guards and sets the number of words; the table's words are the caller's to write. */
uint32_t *lend(struct lent *l, size_t words);

/* Makes the call. `refused` is 2 or 3 where the words are refused, and then the model is not asked; else the model makes the same step. */
void compare_call(struct lent *l, struct model *m, uint32_t refused, const struct ask *ask);

/* Whether the words are sound and show what the model holds. */
void compare_table(const struct lent *l, const struct model *m);

#endif
