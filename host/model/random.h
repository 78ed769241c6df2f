/* Repeatable random numbers: the same seed gives the same commands and damages everywhere. */
#ifndef RANDOM_H
#define RANDOM_H
#include <stddef.h>
#include <stdint.h>

struct dice { uint64_t at; };

static inline uint64_t roll(struct dice *d) {
    uint64_t z = (d->at += 0x9E3779B97F4A7C15u);
    z = (z ^ (z >> 30)) * 0xBF58476D1CE4E5B9u;
    z = (z ^ (z >> 27)) * 0x94D049BB133111EBu;
    return z ^ (z >> 31);
}

/* A number below n, which is not 0. */
static inline size_t below(struct dice *d, size_t n) { return (size_t)(roll(d) % n); }

#endif
