/* Whether words are a sound table, from document 01's paragraph alone, clause by clause and slowly. */
#ifndef SOUNDNESS_H
#define SOUNDNESS_H
#include <stddef.h>
#include <stdint.h>

/* The clause that the words of a table of that Q break, or NULL for a sound table. */
const char *broken_clause(const uint32_t *t, size_t q);

/* The refusal number of every call but lay-out: 2, 3 or 0. */
uint32_t refusal(const uint32_t *t, size_t words);

/* The bucket of an id. */
size_t bucket_of(uint32_t id, size_t q);

#endif
