/* The other constructions: both take the same command bytes, follow the same arrival rule and give the same sums. */
#ifndef RIVALS_H
#define RIVALS_H
#include "flat.h"
#include <stddef.h>
#include <stdint.h>
#ifdef __cplusplus
extern "C" {
#endif

/* HL-HITTERS as the papers build it: a hash map, a vector of ranges, intrusive lists, pools of nodes. */
struct hitters;
struct hitters *hitters_new(size_t q);
void hitters_free(struct hitters *h);
struct flat_sums hitters_run(struct hitters *h, const uint8_t *commands, size_t bytes);
/* Id and count pairs of the clients, heaviest first; the number of clients. */
size_t hitters_heaviest(const struct hitters *h, uint32_t *out, size_t pairs);

/* Direct counting: the window alone is kept, and after each command the heaviest client is found by counting it. */
struct direct;
struct direct *direct_new(size_t q);
void direct_free(struct direct *d);
struct flat_sums direct_run(struct direct *d, const uint8_t *commands, size_t bytes);
/* The heaviest client alone: 1, or 0 where nobody waits. */
size_t direct_heaviest(const struct direct *d, uint32_t *out);

#ifdef __cplusplus
}
#endif
#endif
