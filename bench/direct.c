/* Direct counting, as source documents 000 and 002 compare it: the window is a plain queue, and the heaviest client is found by
   counting the window in a hash table after each command. */
#include "rivals.h"
#include <stdlib.h>
#include <string.h>

enum { SLOTS = 2048 };

/* A request, and in the newest of a client when its count last changed: of equal counts the one that has had it longest is heaviest. */
struct waiting { uint32_t id, ticket; uint64_t changed; };

/* A slot counts only for the round that it was written in. */
struct slot { uint64_t round; uint32_t id, count; uint64_t changed; };

struct direct {
    size_t places, requests;
    uint64_t clock, round;
    uint32_t heaviest_id, heaviest_count;
    struct waiting window[1000];
    struct slot slots[SLOTS];
};

struct direct *direct_new(size_t q) {
    struct direct *d = calloc(1, sizeof *d);
    d->places = q;
    return d;
}

void direct_free(struct direct *d) { free(d); }

static struct slot *slot_of(struct direct *d, uint32_t id) {
    size_t at = (id * 2654435761u) >> 21;
    while (d->slots[at].round == d->round && d->slots[at].id != id) {
        at = (at + 1) % SLOTS;
    }
    return &d->slots[at];
}

static void count_window(struct direct *d) {
    const struct slot *best = NULL;
    d->round++;
    for (size_t i = 0; i < d->requests; i++) {
        const struct waiting *w = &d->window[i];
        struct slot *s = slot_of(d, w->id);
        if (s->round != d->round) {
            *s = (struct slot){d->round, w->id, 0, 0};
        }
        s->count++;
        s->changed = w->changed;
    }
    for (size_t i = 0; i < d->requests; i++) {
        const struct slot *s = slot_of(d, d->window[i].id);
        if (best == NULL || s->count > best->count || (s->count == best->count && s->changed < best->changed)) {
            best = s;
        }
    }
    d->heaviest_id = best ? best->id : 0;
    d->heaviest_count = best ? best->count : 0;
}

static size_t newest(const struct direct *d, uint32_t id) {
    size_t at = d->requests;
    while (at > 0 && d->window[at - 1].id != id) {
        at--;
    }
    return at;
}

static void leave(struct direct *d, size_t at) {
    uint32_t id = d->window[at].id;
    d->requests--;
    memmove(&d->window[at], &d->window[at + 1], (d->requests - at) * sizeof d->window[0]);
    size_t last = newest(d, id);
    if (last > 0) {
        d->window[last - 1].changed = ++d->clock;
    }
}

static void join(struct direct *d, uint32_t id, uint32_t ticket) { d->window[d->requests++] = (struct waiting){id, ticket, ++d->clock}; }

static uint32_t count_of(struct direct *d, uint32_t id) {
    const struct slot *s = slot_of(d, id);
    return s->round == d->round ? s->count : 0;
}

static unsigned arrive(struct direct *d, uint32_t id, uint32_t ticket) {
    unsigned happened = FLAT_JOINED;
    if (d->requests == d->places) {
        if (count_of(d, id) + 1 >= d->heaviest_count) {
            return FLAT_TURNED;
        }
        leave(d, newest(d, d->heaviest_id) - 1);
        happened = FLAT_EVICTED;
    }
    join(d, id, ticket);
    return happened;
}

static unsigned slide(struct direct *d, uint32_t id, uint32_t ticket) {
    unsigned happened = FLAT_JOINED;
    if (d->requests == d->places) {
        leave(d, 0);
        happened = FLAT_PASSED;
    }
    join(d, id, ticket);
    return happened;
}

static unsigned serve(struct direct *d) {
    if (d->requests == 0) {
        return 0;
    }
    leave(d, 0);
    return FLAT_SERVED;
}

static uint32_t number_at(const uint8_t *bytes) {
    uint32_t x;
    memcpy(&x, bytes, sizeof x);
    return x;
}

struct flat_sums direct_run(struct direct *d, const uint8_t *commands, size_t bytes) {
    struct flat_sums sums = {0};
    for (; bytes >= 9; bytes -= 9, commands += 9, sums.done++) {
        uint32_t id = number_at(commands + 1), ticket = number_at(commands + 5);
        unsigned happened = commands[0] == 1 ? arrive(d, id, ticket) : commands[0] == 2 ? slide(d, id, ticket) : serve(d);
        count_window(d);
        sums.joined += commands[0] != 3 && happened != FLAT_TURNED;
        sums.evicted += happened == FLAT_EVICTED;
        sums.turned += happened == FLAT_TURNED;
        sums.passed += happened == FLAT_PASSED;
        sums.served += happened == FLAT_SERVED;
        sums.idle += happened == 0;
    }
    return sums;
}

size_t direct_heaviest(const struct direct *d, uint32_t *out) {
    out[0] = d->heaviest_id;
    out[1] = d->heaviest_count;
    return d->requests > 0;
}
