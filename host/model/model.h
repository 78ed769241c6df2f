/* The limiter as two plain lists, written from document 01 and W-203 of document 02 alone: it knows no rows and no links. */
#ifndef MODEL_H
#define MODEL_H
#include <stdbool.h>
#include <stddef.h>
#include <stdint.h>

enum { MOST_PLACES = 1000, COMMAND_BYTES = 9 };

struct request { uint32_t id, ticket; };

struct client { uint32_t id; size_t count; };

/* The waiting requests oldest first, and the clients lightest first. */
struct model {
    size_t places, requests, clients;
    struct request window[MOST_PLACES];
    struct client order[MOST_PLACES];
};

enum event { NOTHING, JOINED, EVICTED, TURNED_AWAY, PASSED, SERVED };

/* What a step answers: a refusal number or 0, what happened, and the request that left or (0, 0). */
struct answer { uint32_t number; enum event event; struct request left; };

/* What a run answers. */
struct tally { uint32_t stop; uint64_t done, joined, evicted, passed, served, turned, idle; };

/* The day record's totals. */
struct day { uint64_t joined, evicted, passed, served, turned, idle; };

void model_empty(struct model *m, size_t places);
struct answer model_arrive(struct model *m, struct request r);
struct answer model_slide(struct model *m, struct request r);
struct answer model_serve(struct model *m);
/* Whether nine bytes are a command; a run stops with 8 where they are not. */
bool model_command(const uint8_t *bytes);
struct tally model_run(struct model *m, const uint8_t *commands, size_t bytes, uint64_t budget);
/* Adds a run's totals to the day record; each stays at its largest value once there. */
void model_bring_up(struct day *day, const struct tally *sums);

size_t model_count(const struct model *m, uint32_t id);
/* The ticket of a client's oldest or newest request; false for a client that does not wait. */
bool model_oldest(const struct model *m, uint32_t id, uint32_t *ticket);
bool model_newest(const struct model *m, uint32_t id, uint32_t *ticket);
/* The first k clients as pairs, in an output of that many words: 0 or refusal number 4. */
uint32_t model_heaviest(const struct model *m, size_t k, uint32_t *out, size_t words, size_t *pairs);
uint32_t model_lightest(const struct model *m, size_t k, uint32_t *out, size_t words, size_t *pairs);

bool model_same(const struct model *a, const struct model *b);
/* Whether the clients are those of the window, each once and with its number of requests, lightest first. */
bool model_consistent(const struct model *m);

#endif
