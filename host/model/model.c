/* The limiter as two plain lists: every rule is a search through one of them. */
#include "model.h"
#include <string.h>

static size_t full_scan_count(const struct model *m, uint32_t id) {
    size_t n = 0;
    for (size_t i = 0; i < m->requests; i++) {
        n += m->window[i].id == id;
    }
    return n;
}

void model_empty(struct model *m, size_t places) {
    m->places = places;
    m->requests = 0;
    m->clients = 0;
}

/* Where the client stands in the order, or the number of clients. */
static size_t standing(const struct model *m, uint32_t id) {
    size_t at = 0;
    while (at < m->clients && m->order[at].id != id) {
        at++;
    }
    return at;
}

static void take_out(struct model *m, size_t at) {
    m->clients--;
    memmove(&m->order[at], &m->order[at + 1], (m->clients - at) * sizeof m->order[0]);
}

/* To the lighter end of the clients with that count. */
static void put_in(struct model *m, struct client c) {
    size_t at = 0;
    while (at < m->clients && m->order[at].count < c.count) {
        at++;
    }
    memmove(&m->order[at + 1], &m->order[at], (m->clients - at) * sizeof m->order[0]);
    m->order[at] = c;
    m->clients++;
}

static void join(struct model *m, struct request r) {
    struct client c = {r.id, 0};
    size_t at = standing(m, r.id);
    if (at < m->clients) {
        c = m->order[at];
        take_out(m, at);
    }
    c.count++;
    put_in(m, c);
    m->window[m->requests++] = r;
}

static struct request leave(struct model *m, size_t place) {
    struct request r = m->window[place];
    m->requests--;
    memmove(&m->window[place], &m->window[place + 1], (m->requests - place) * sizeof m->window[0]);
    size_t at = standing(m, r.id);
    struct client c = m->order[at];
    take_out(m, at);
    c.count--;
    if (c.count > 0) {
        put_in(m, c);
    }
    return r;
}

/* The place of a client's newest request; the client waits. */
static size_t newest_place(const struct model *m, uint32_t id) {
    size_t at = m->requests - 1;
    while (m->window[at].id != id) {
        at--;
    }
    return at;
}

static bool full(const struct model *m) { return m->requests == m->places; }

struct answer model_arrive(struct model *m, struct request r) {
    struct answer a = {0, JOINED, {0, 0}};
    if (full(m)) {
        struct client heaviest = m->order[m->clients - 1];
        if (model_count(m, r.id) + 1 >= heaviest.count) {
            a.event = TURNED_AWAY;
            return a;
        }
        a.event = EVICTED;
        a.left = leave(m, newest_place(m, heaviest.id));
    }
    join(m, r);
    return a;
}

struct answer model_slide(struct model *m, struct request r) {
    struct answer a = {0, JOINED, {0, 0}};
    if (full(m)) {
        a.event = PASSED;
        a.left = leave(m, 0);
    }
    join(m, r);
    return a;
}

struct answer model_serve(struct model *m) {
    if (m->requests == 0) {
        return (struct answer){5, NOTHING, {0, 0}};
    }
    return (struct answer){0, SERVED, leave(m, 0)};
}

size_t model_count(const struct model *m, uint32_t id) {
    size_t at = standing(m, id);
    return at < m->clients ? m->order[at].count : 0;
}

bool model_oldest(const struct model *m, uint32_t id, uint32_t *ticket) {
    for (size_t i = 0; i < m->requests; i++) {
        if (m->window[i].id == id) {
            *ticket = m->window[i].ticket;
            return true;
        }
    }
    return false;
}

bool model_newest(const struct model *m, uint32_t id, uint32_t *ticket) {
    for (size_t i = m->requests; i-- > 0;) {
        if (m->window[i].id == id) {
            *ticket = m->window[i].ticket;
            return true;
        }
    }
    return false;
}

static uint32_t list(const struct model *m, bool heavy_first, size_t k, uint32_t *out, size_t words, size_t *pairs) {
    size_t n = k < m->clients ? k : m->clients;
    *pairs = 0;
    if (words < 2 * n) {
        return 4;
    }
    for (size_t i = 0; i < n; i++) {
        const struct client *c = &m->order[heavy_first ? m->clients - 1 - i : i];
        out[2 * i] = c->id;
        out[2 * i + 1] = (uint32_t)c->count;
    }
    *pairs = n;
    return 0;
}

uint32_t model_heaviest(const struct model *m, size_t k, uint32_t *out, size_t words, size_t *pairs) {
    return list(m, true, k, out, words, pairs);
}

uint32_t model_lightest(const struct model *m, size_t k, uint32_t *out, size_t words, size_t *pairs) {
    return list(m, false, k, out, words, pairs);
}

static uint32_t number_at(const uint8_t *bytes) {
    return bytes[0] + 256u * bytes[1] + 65536u * bytes[2] + 16777216u * bytes[3];
}

static void carry_out(struct model *m, unsigned kind, struct request r, struct tally *sums) {
    struct answer a = kind == 1 ? model_arrive(m, r) : kind == 2 ? model_slide(m, r) : model_serve(m);
    sums->done++;
    sums->joined += kind != 3 && a.event != TURNED_AWAY;
    sums->evicted += a.event == EVICTED;
    sums->passed += a.event == PASSED;
    sums->served += a.event == SERVED;
    sums->turned += a.event == TURNED_AWAY;
    sums->idle += a.number == 5;
}

bool model_command(const uint8_t *bytes) {
    unsigned kind = bytes[0];
    return kind == 1 || kind == 2 || (kind == 3 && number_at(bytes + 1) == 0 && number_at(bytes + 5) == 0);
}

struct tally model_run(struct model *m, const uint8_t *commands, size_t bytes, uint64_t budget) {
    struct tally sums = {0};
    for (;;) {
        if (bytes == 0) {
            sums.stop = 0;
            return sums;
        }
        if (sums.done == budget) {
            sums.stop = 1;
            return sums;
        }
        if (bytes < COMMAND_BYTES) {
            sums.stop = 7;
            return sums;
        }
        if (!model_command(commands)) {
            sums.stop = 8;
            return sums;
        }
        carry_out(m, commands[0], (struct request){number_at(commands + 1), number_at(commands + 5)}, &sums);
        commands += COMMAND_BYTES;
        bytes -= COMMAND_BYTES;
    }
}

static void add(uint64_t *total, uint64_t more) { *total = more > UINT64_MAX - *total ? UINT64_MAX : *total + more; }

void model_bring_up(struct day *day, const struct tally *sums) {
    add(&day->joined, sums->joined);
    add(&day->evicted, sums->evicted);
    add(&day->passed, sums->passed);
    add(&day->served, sums->served);
    add(&day->turned, sums->turned);
    add(&day->idle, sums->idle);
}

bool model_same(const struct model *a, const struct model *b) {
    if (a->places != b->places || a->requests != b->requests || a->clients != b->clients) {
        return false;
    }
    for (size_t i = 0; i < a->requests; i++) {
        if (a->window[i].id != b->window[i].id || a->window[i].ticket != b->window[i].ticket) {
            return false;
        }
    }
    for (size_t i = 0; i < a->clients; i++) {
        if (a->order[i].id != b->order[i].id || a->order[i].count != b->order[i].count) {
            return false;
        }
    }
    return true;
}

bool model_consistent(const struct model *m) {
    size_t sum = 0;
    for (size_t i = 0; i < m->clients; i++) {
        if (m->order[i].count == 0 || m->order[i].count != full_scan_count(m, m->order[i].id)) {
            return false;
        }
        if (i > 0 && m->order[i].count < m->order[i - 1].count) {
            return false;
        }
        if (standing(m, m->order[i].id) != i) {
            return false;
        }
        sum += m->order[i].count;
    }
    return sum == m->requests && m->requests <= m->places;
}
