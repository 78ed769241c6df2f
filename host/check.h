/* Checks that count themselves and stop the program at the first that fails; buffers that notice who writes outside them. */
#ifndef CHECK_H
#define CHECK_H

#include <stddef.h>
#include <stdint.h>

/* Stops with file, line and case of the check, where it does not hold. */
#define CHECK(holds) check_at(__FILE__, __LINE__, (holds), #holds)
void check_at(const char *file, int line, int holds, const char *what);

/* Names the case that the next checks are of: a part of the tests and a number in it. */
void check_case(const char *part, size_t number);

/* Says that a part of the tests is done. */
void check_part(const char *part);

/* Says how many checks passed. */
void check_end(void);

/* Words that are lent to a call. Guard words stand before them; behind them as well, or else a page that nothing may
 * read or write begins where they end. */
struct lent {
    uint32_t *words;
    size_t count;
    size_t behind;   /* guard words behind */
    uint32_t *first; /* the first word that may be touched */
    uint32_t *copy;  /* the words as they were at lent_note */
    char *pages;
    size_t bytes;
};

enum lent_behind { GUARDS, NO_PAGE };

struct lent lent_of(size_t count, enum lent_behind behind);
void lent_back(struct lent *l);

/* Notes the words as they are. */
void lent_note(struct lent *l);

/* Whether the words are as noted, from word `from` on. */
int lent_same(const struct lent *l, size_t from);

/* Whether the guard words are as they were. */
int lent_guarded(const struct lent *l);

/* Bytes that are lent: the last ones of such words, or so many bytes before their end. */
struct lent_bytes {
    struct lent lent;
    uint8_t *at;
};

/* A copy of these bytes, noted; where `from` is NULL, as many fresh ones. */
struct lent_bytes lent_bytes_of(const uint8_t *from, size_t count, enum lent_behind behind, size_t before_end);

#endif
