/* A small host: a pool of words, a table of four places in a part of it, a few requests, and what it can ask. */
#include <inttypes.h>
#include <stdio.h>

#include "boomspool.h"

enum { POOL = 200, START = 100, PLACES = 4, LISTED = 3 };

static uint32_t pool[POOL];

/* Stands in for carve: where a table of that many places begins in the pool, or NULL where it does not fit. The start
 * is compared before it is subtracted, so that nothing can wrap. */
static uint32_t *carve(uint32_t *words, size_t count, size_t start, size_t places)
{
    const size_t need = boomspool_words(places);
    if (need == 0 || start > count || count - start < need) {
        return NULL;
    }
    return words + start;
}

static int refused(const char *call, uint32_t number)
{
    if (number != BOOMSPOOL_OK) {
        printf("%s refused: %" PRIu32 "\n", call, number);
    }
    return number != BOOMSPOOL_OK;
}

static void arrive(uint32_t *table, size_t words, uint32_t id, uint32_t ticket)
{
    const struct boomspool_arrived r = boomspool_arrive(table, words, id, ticket);
    if (refused("arrive", r.number)) {
        return;
    }
    printf("client %" PRIu32 " ticket %" PRIu32 ": ", id, ticket);
    if (r.happened == BOOMSPOOL_EVICTED) {
        printf("joined, client %" PRIu32 " ticket %" PRIu32 " had to leave\n", r.id, r.ticket);
    } else {
        printf("%s\n", r.happened == BOOMSPOOL_JOINED ? "joined" : "turned away");
    }
}

static void list(const uint32_t *table, size_t words)
{
    uint32_t pairs[2 * LISTED];
    const struct boomspool_listed r = boomspool_heaviest(table, words, LISTED, pairs, 2 * LISTED);
    if (refused("heaviest", r.number)) {
        return;
    }
    for (size_t i = 0; i < r.pairs; i++) {
        printf("client %" PRIu32 " has %" PRIu32 " waiting\n", pairs[2 * i], pairs[2 * i + 1]);
    }
}

int main(void)
{
    const size_t words = boomspool_words(PLACES);
    uint32_t *table = carve(pool, POOL, START, PLACES);
    if (table == NULL || refused("lay-out", boomspool_lay_out(table, words, PLACES))) {
        return 1;
    }
    printf("a table of %d places takes %zu words\n", PLACES, words);
    arrive(table, words, 1, 10);
    arrive(table, words, 1, 11);
    arrive(table, words, 2, 12);
    arrive(table, words, 1, 13);
    arrive(table, words, 3, 14);
    arrive(table, words, 1, 15);
    arrive(table, words, 2, 16);
    list(table, words);

    const struct boomspool_served first = boomspool_serve(table, words);
    if (refused("serve", first.number)) {
        return 1;
    }
    printf("served client %" PRIu32 " ticket %" PRIu32 "\n", first.id, first.ticket);
    printf("client 1 has %" PRIu32 " waiting, the oldest with ticket %" PRIu32 "\n", boomspool_count(table, words, 1).count,
           boomspool_oldest(table, words, 1).ticket);
    refused("oldest", boomspool_oldest(table, words, 9).number);
    return 0;
}
