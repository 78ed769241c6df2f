/* A careful C program on the same flat table: same words, same replies, same refusals. The proved archive is measured against it.
   flat.c is compiled twice: as it stands, and with NARROW as `narrow_..`, whose remainder is one of 32 bits. */
#ifndef FLAT_H
#define FLAT_H
#include <stddef.h>
#include <stdint.h>
#ifdef __cplusplus
extern "C" {
#endif

struct flat_left { uint32_t number, happened, id, ticket; };
struct flat_sums { uint32_t stop; uint64_t done, joined, evicted, passed, served, turned, idle; };

/* What happened to the command: 1 joined, 2 evicted, 3 turned away, 4 passed, 5 served. */
enum { FLAT_JOINED = 1, FLAT_EVICTED, FLAT_TURNED, FLAT_PASSED, FLAT_SERVED };

uint32_t flat_lay_out(uint32_t *t, size_t words, size_t q);

/* Each checks the whole table first. */
struct flat_left flat_arrive(uint32_t *t, size_t words, uint32_t id, uint32_t ticket);
struct flat_left flat_slide(uint32_t *t, size_t words, uint32_t id, uint32_t ticket);
struct flat_left flat_serve(uint32_t *t, size_t words);
uint32_t flat_count(const uint32_t *t, size_t words, uint32_t id, uint32_t *count);

/* Checks once, then carries the commands out. */
struct flat_sums flat_run(uint32_t *t, size_t words, const uint8_t *commands, size_t bytes, uint64_t budget);

/* The same with NARROW. */
uint32_t narrow_lay_out(uint32_t *t, size_t words, size_t q);
uint32_t narrow_count(const uint32_t *t, size_t words, uint32_t id, uint32_t *count);
struct flat_sums narrow_run(uint32_t *t, size_t words, const uint8_t *commands, size_t bytes, uint64_t budget);

#ifdef __cplusplus
}
#endif
#endif
