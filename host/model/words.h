/* The words of a table as document 01 lists them, for the programs here that look at words. */
#ifndef WORDS_H
#define WORDS_H
#include <stddef.h>
#include <stdint.h>

#define NONE 0xFFFFFFFFu
#define MARK 0x484C0001u

enum { LARGEST_Q = 1000, HEADER_WORDS = 16, ITEM_WORDS = 6, CLIENT_WORDS = 7, COUNT_WORDS = 2, BUCKET_WORDS = 1 };

enum header { H_MARK, H_Q, H_REQUESTS, H_CLIENTS, H_FRONT, H_BACK, H_LIGHTEST, H_HEAVIEST, H_FREE_ITEM, H_FREE_CLIENT, H_ZEROS };
enum item { I_CLIENT, I_TICKET, I_EARLIER, I_LATER, I_OWN_EARLIER, I_OWN_LATER };
enum client_word { C_ID, C_COUNT, C_LIGHTER, C_HEAVIER, C_OLDEST, C_NEWEST, C_NEXT };
enum count_word { N_LIGHT_END, N_HEAVY_END };

enum { MOST_WORDS = HEADER_WORDS + (ITEM_WORDS + CLIENT_WORDS + COUNT_WORDS + BUCKET_WORDS) * LARGEST_Q };

static inline size_t words_of(size_t q) {
    return HEADER_WORDS + (ITEM_WORDS + CLIENT_WORDS + COUNT_WORDS + BUCKET_WORDS) * q;
}
static inline size_t item_at(size_t row, size_t word) { return HEADER_WORDS + ITEM_WORDS * row + word; }
static inline size_t client_at(size_t q, size_t row, size_t word) {
    return HEADER_WORDS + ITEM_WORDS * q + CLIENT_WORDS * row + word;
}
/* The row of a count from 1 to q. */
static inline size_t count_at(size_t q, size_t count, size_t word) {
    return HEADER_WORDS + (ITEM_WORDS + CLIENT_WORDS) * q + COUNT_WORDS * (count - 1) + word;
}
static inline size_t bucket_at(size_t q, size_t bucket) {
    return HEADER_WORDS + (ITEM_WORDS + CLIENT_WORDS + COUNT_WORDS) * q + bucket;
}

#endif
