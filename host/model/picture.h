/* A table as lists of rows: read from a sound table, made at random, rearranged, spoilt, and drawn in words. */
#ifndef PICTURE_H
#define PICTURE_H
#include "model.h"
#include "random.h"
#include "words.h"

/* Rows in an order. A spoilt picture may list a row twice, hence the room. */
struct rows { size_t length; uint32_t row[2 * LARGEST_Q]; };

struct picture {
    size_t q;
    struct rows window, free_items;    /* item rows: front first; first free first */
    struct rows own;                   /* item rows in the order of the own lists: that of the window */
    uint32_t owner[LARGEST_Q], ticket[LARGEST_Q];
    struct rows order, free_clients;   /* client rows: lightest first; first free first */
    struct rows chains;                /* client rows in the order of the bucket chains */
    uint32_t id[LARGEST_Q], count[LARGEST_Q], bucket[LARGEST_Q];
};

void picture_read(struct picture *p, const uint32_t *t, size_t q);
void picture_draw(const struct picture *p, uint32_t *t);
/* A right picture with that many requests of ids from the palette; every order that document 01 leaves open is random. */
void picture_random(struct picture *p, size_t q, size_t requests, const uint32_t *palette, size_t ids, struct dice *d);
/* Rows renumbered, free chains and bucket chains permuted, clients of equal counts permuted: still right. */
void picture_rearrange(struct picture *p, struct dice *d);
/* One plausible lie: a list, a count, an id, an owner or a bucket is no longer right, and the words are drawn to suit. */
void picture_spoil(struct picture *p, struct dice *d);
/* What a right picture shows. */
void picture_model(const struct picture *p, struct model *m);

#endif
