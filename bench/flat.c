/* A careful C program on the flat table of document 01: steps that touch what they must, and a check in one pass over each
   region that keeps no marks. Links that agree both ways from a none end repeat no row; a free chain that ends after as many
   rows as are left repeats none; free clients have count 0, and free items have both own links 0, as no waiting one has. */
#include "flat.h"
#include <stdbool.h>
#include <string.h>

#define NONE 0xFFFFFFFFu
#define MARK 0x484C0001u

enum { LARGEST = 1000, HEADER = 16, ITEM = 6, CLIENT = 7, COUNT = 2, ROW = ITEM + CLIENT + COUNT + 1 };
enum { AT_MARK, AT_Q, REQUESTS, CLIENTS, FRONT, BACK, LIGHTEST, HEAVIEST, FREE_ITEM, FREE_CLIENT, ZEROS };
enum { OWNER, TICKET, EARLIER, LATER, OWN_EARLIER, OWN_LATER };
enum { ID, WAITING, LIGHTER, HEAVIER, OLDEST, NEWEST, NEXT };
enum { LIGHT, HEAVY };

static uint32_t spread[1024];

__attribute__((constructor)) static void fill_spread(void) {
    uint64_t x = 1;
    for (int i = 0; i < 1024; i++) {
        spread[i] = (uint32_t)x;
        x = x * 48271u % 2147483647u;
    }
}

/* Where the regions of a table begin. */
struct view { uint32_t *t, *items, *clients, *counts, *buckets; uint32_t q; };

static inline struct view view(uint32_t *t) {
    size_t q = t[AT_Q];
    uint32_t *items = t + HEADER, *clients = items + ITEM * q, *counts = clients + CLIENT * q;
    return (struct view){t, items, clients, counts, counts + COUNT * q, (uint32_t)q};
}

static inline uint32_t *item(struct view v, uint32_t r) { return v.items + (size_t)ITEM * r; }
static inline uint32_t *client(struct view v, uint32_t c) { return v.clients + (size_t)CLIENT * c; }
static inline uint32_t *ends(struct view v, uint32_t count) { return v.counts + (size_t)COUNT * (count - 1); }

static inline uint32_t bucket(uint32_t id, uint32_t q) {
    uint64_t sum = (uint64_t)spread[id & 255] + spread[256 + (id >> 8 & 255)] + spread[512 + (id >> 16 & 255)] + spread[768 + (id >> 24)];
#ifdef NARROW
    uint32_t x = 2 * ((uint32_t)(sum / 2) % q) + (uint32_t)(sum % 2);
    return x < q ? x : x - q;
#else
    return (uint32_t)(sum % q);
#endif
}

static inline uint32_t find(struct view v, uint32_t id) {
    uint32_t c = v.buckets[bucket(id, v.q)];
    while (c != NONE && client(v, c)[ID] != id) {
        c = client(v, c)[NEXT];
    }
    return c;
}

uint32_t flat_lay_out(uint32_t *t, size_t words, size_t q) {
    if (q < 1 || q > LARGEST) {
        return 1;
    }
    if (words < HEADER + ROW * q) {
        return 2;
    }
    memset(t, 0, (HEADER + (ITEM + CLIENT) * q) * sizeof t[0]);
    memset(t + HEADER + (ITEM + CLIENT) * q, 0xFF, (COUNT + 1) * q * sizeof t[0]);
    t[AT_MARK] = MARK;
    t[AT_Q] = (uint32_t)q;
    t[FRONT] = t[BACK] = t[LIGHTEST] = t[HEAVIEST] = NONE;
    struct view v = view(t);
    for (uint32_t r = 0; r < q; r++) {
        item(v, r)[LATER] = client(v, r)[HEAVIER] = r + 1 < q ? r + 1 : NONE;
    }
    return 0;
}

/* The order of clients. */

static inline void unlink_client(struct view v, uint32_t *row) {
    uint32_t lighter = row[LIGHTER], heavier = row[HEAVIER];
    *(lighter == NONE ? &v.t[LIGHTEST] : &client(v, lighter)[HEAVIER]) = heavier;
    *(heavier == NONE ? &v.t[HEAVIEST] : &client(v, heavier)[LIGHTER]) = lighter;
}

static inline void link_between(struct view v, uint32_t c, uint32_t lighter, uint32_t heavier) {
    uint32_t *row = client(v, c);
    row[LIGHTER] = lighter;
    row[HEAVIER] = heavier;
    *(lighter == NONE ? &v.t[LIGHTEST] : &client(v, lighter)[HEAVIER]) = c;
    *(heavier == NONE ? &v.t[HEAVIEST] : &client(v, heavier)[LIGHTER]) = c;
}

static inline void leave_group(uint32_t *group, uint32_t c, const uint32_t *row) {
    if (group[LIGHT] == group[HEAVY]) {
        group[LIGHT] = group[HEAVY] = NONE;
    } else if (group[LIGHT] == c) {
        group[LIGHT] = row[HEAVIER];
    } else if (group[HEAVY] == c) {
        group[HEAVY] = row[LIGHTER];
    }
}

static inline void enter_group(uint32_t *group, uint32_t c) {
    group[LIGHT] = c;
    if (group[HEAVY] == NONE) {
        group[HEAVY] = c;
    }
}

/* One more: behind the heavy end of its group, which is where the next group begins. */
static void raise(struct view v, uint32_t c) {
    uint32_t *row = client(v, c), *group = ends(v, row[WAITING]), heavy = group[HEAVY];
    leave_group(group, c, row);
    if (heavy != c) {
        unlink_client(v, row);
        link_between(v, c, heavy, client(v, heavy)[HEAVIER]);
    }
    enter_group(group + COUNT, c);
    row[WAITING]++;
}

/* One less, of several: before the light end of the group below, or before its own group. */
static void lower(struct view v, uint32_t c) {
    uint32_t *row = client(v, c), *group = ends(v, row[WAITING]), *below = group - COUNT;
    uint32_t next = below[LIGHT] != NONE ? below[LIGHT] : group[LIGHT];
    leave_group(group, c, row);
    if (next != c) {
        unlink_client(v, row);
        link_between(v, c, client(v, next)[LIGHTER], next);
    }
    enter_group(below, c);
    row[WAITING]--;
}

static uint32_t admit(struct view v, uint32_t id) {
    uint32_t c = v.t[FREE_CLIENT], *row = client(v, c), *head = &v.buckets[bucket(id, v.q)];
    v.t[FREE_CLIENT] = row[HEAVIER];
    v.t[CLIENTS]++;
    row[ID] = id;
    row[WAITING] = 1;
    row[OLDEST] = row[NEWEST] = NONE;
    row[NEXT] = *head;
    *head = c;
    link_between(v, c, NONE, v.t[LIGHTEST]);
    enter_group(v.counts, c);
    return c;
}

static void dismiss(struct view v, uint32_t c) {
    uint32_t *row = client(v, c), *link = &v.buckets[bucket(row[ID], v.q)];
    while (*link != c) {
        link = &client(v, *link)[NEXT];
    }
    *link = row[NEXT];
    leave_group(v.counts, c, row);
    unlink_client(v, row);
    memset(row, 0, CLIENT * sizeof row[0]);
    row[HEAVIER] = v.t[FREE_CLIENT];
    v.t[FREE_CLIENT] = c;
    v.t[CLIENTS]--;
}

/* Requests. */

static void join(struct view v, uint32_t c, uint32_t id, uint32_t ticket) {
    if (c == NONE) {
        c = admit(v, id);
    } else {
        raise(v, c);
    }
    uint32_t *row = client(v, c), r = v.t[FREE_ITEM], *it = item(v, r), back = v.t[BACK], newest = row[NEWEST];
    v.t[FREE_ITEM] = it[LATER];
    v.t[REQUESTS]++;
    it[OWNER] = c;
    it[TICKET] = ticket;
    it[EARLIER] = back;
    it[LATER] = NONE;
    it[OWN_EARLIER] = newest;
    it[OWN_LATER] = NONE;
    *(back == NONE ? &v.t[FRONT] : &item(v, back)[LATER]) = r;
    v.t[BACK] = r;
    *(newest == NONE ? &row[OLDEST] : &item(v, newest)[OWN_LATER]) = r;
    row[NEWEST] = r;
}

static inline void free_item(struct view v, uint32_t r) {
    uint32_t *it = item(v, r);
    memset(it, 0, ITEM * sizeof it[0]);
    it[LATER] = v.t[FREE_ITEM];
    v.t[FREE_ITEM] = r;
    v.t[REQUESTS]--;
}

/* The front request, which is its client's oldest. */
static struct flat_left leave(struct view v, uint32_t happened) {
    uint32_t r = v.t[FRONT], *it = item(v, r), c = it[OWNER], *row = client(v, c), later = it[LATER], own_later = it[OWN_LATER];
    struct flat_left left = {0, happened, row[ID], it[TICKET]};
    v.t[FRONT] = later;
    *(later == NONE ? &v.t[BACK] : &item(v, later)[EARLIER]) = NONE;
    if (row[WAITING] == 1) {
        dismiss(v, c);
    } else {
        row[OLDEST] = own_later;
        item(v, own_later)[OWN_EARLIER] = NONE;
        lower(v, c);
    }
    free_item(v, r);
    return left;
}

/* The heaviest client's newest request: that client has an earlier one, so it stays. */
static struct flat_left evict(struct view v) {
    uint32_t c = v.t[HEAVIEST], *row = client(v, c), r = row[NEWEST], *it = item(v, r);
    uint32_t earlier = it[EARLIER], later = it[LATER], own_earlier = it[OWN_EARLIER];
    struct flat_left left = {0, FLAT_EVICTED, row[ID], it[TICKET]};
    item(v, earlier)[LATER] = later;
    *(later == NONE ? &v.t[BACK] : &item(v, later)[EARLIER]) = earlier;
    row[NEWEST] = own_earlier;
    item(v, own_earlier)[OWN_LATER] = NONE;
    lower(v, c);
    free_item(v, r);
    return left;
}

static inline struct flat_left arrive(struct view v, uint32_t id, uint32_t ticket) {
    struct flat_left left = {0, FLAT_JOINED, 0, 0};
    uint32_t c = find(v, id);
    if (v.t[REQUESTS] == v.q) {
        uint32_t count = c == NONE ? 0 : client(v, c)[WAITING];
        if (count + 1 >= client(v, v.t[HEAVIEST])[WAITING]) {
            left.happened = FLAT_TURNED;
            return left;
        }
        left = evict(v);
    }
    join(v, c, id, ticket);
    return left;
}

static inline struct flat_left slide(struct view v, uint32_t id, uint32_t ticket) {
    struct flat_left left = {0, FLAT_JOINED, 0, 0};
    if (v.t[REQUESTS] == v.q) {
        left = leave(v, FLAT_PASSED);
    }
    join(v, find(v, id), id, ticket);
    return left;
}

static inline struct flat_left serve(struct view v) {
    if (v.t[REQUESTS] == 0) {
        return (struct flat_left){5, 0, 0, 0};
    }
    return leave(v, FLAT_SERVED);
}

/* The check. */

static bool clients_sound(struct view v) {
    uint32_t left = v.t[CLIENTS], at = v.t[LIGHTEST], before = NONE, floor = 0;
    size_t groups = 0, used = 0;
    for (; left > 0; left--) {
        if (at >= v.q) {
            return false;
        }
        const uint32_t *row = client(v, at);
        uint32_t count = row[WAITING];
        if (row[LIGHTER] != before || count - 1 >= v.q || count < floor) {
            return false;
        }
        if (count != floor) {
            if ((floor != 0 && ends(v, floor)[HEAVY] != before) || ends(v, count)[LIGHT] != at) {
                return false;
            }
            floor = count;
            groups++;
        }
        before = at;
        at = row[HEAVIER];
    }
    if (at != NONE || v.t[HEAVIEST] != before || (floor != 0 && ends(v, floor)[HEAVY] != before)) {
        return false;
    }
    for (size_t i = 0; i < (size_t)COUNT * v.q; i++) {
        used += v.counts[i] != NONE;
    }
    return used == COUNT * groups;
}

static bool free_clients_sound(struct view v) {
    uint32_t left = v.q - v.t[CLIENTS], at = v.t[FREE_CLIENT];
    for (; left > 0; left--) {
        if (at >= v.q) {
            return false;
        }
        const uint32_t *row = client(v, at);
        if ((row[ID] | row[WAITING] | row[LIGHTER] | row[OLDEST] | row[NEWEST] | row[NEXT]) != 0) {
            return false;
        }
        at = row[HEAVIER];
    }
    return at == NONE;
}

/* Whether no row of the chain before this one has its id. */
static inline bool new_id(struct view v, uint32_t first, uint32_t at) {
    uint32_t id = client(v, at)[ID];
    for (uint32_t c = first; c != at; c = client(v, c)[NEXT]) {
        if (client(v, c)[ID] == id) {
            return false;
        }
    }
    return true;
}

static bool buckets_sound(struct view v) {
    uint32_t left = v.t[CLIENTS];
    for (uint32_t b = 0; b < v.q; b++) {
        uint32_t first = v.buckets[b];
        for (uint32_t at = first; at != NONE; at = client(v, at)[NEXT], left--) {
            if (left == 0 || at >= v.q || client(v, at)[WAITING] == 0 || bucket(client(v, at)[ID], v.q) != b || !new_id(v, first, at)) {
                return false;
            }
        }
    }
    return left == 0;
}

/* What has been met of a client's own list: the last item, the link on from it, and how many. */
struct own { uint32_t last, next, seen; };

static bool items_sound(struct view v) {
    struct own own[LARGEST];
    for (uint32_t c = 0; c < v.q; c++) {
        own[c] = (struct own){NONE, client(v, c)[OLDEST], 0};
    }
    uint32_t left = v.t[REQUESTS], at = v.t[FRONT], before = NONE;
    for (; left > 0; left--) {
        if (at >= v.q) {
            return false;
        }
        const uint32_t *it = item(v, at);
        uint32_t c = it[OWNER];
        if (it[EARLIER] != before || c >= v.q || own[c].next != at || it[OWN_EARLIER] != own[c].last) {
            return false;
        }
        own[c] = (struct own){at, it[OWN_LATER], own[c].seen + 1};
        before = at;
        at = it[LATER];
    }
    if (at != NONE || v.t[BACK] != before) {
        return false;
    }
    for (uint32_t c = 0; c < v.q; c++) {
        const uint32_t *row = client(v, c);
        if (own[c].seen != row[WAITING] || (row[WAITING] != 0 && (own[c].next != NONE || own[c].last != row[NEWEST]))) {
            return false;
        }
    }
    return true;
}

static bool free_items_sound(struct view v) {
    uint32_t left = v.q - v.t[REQUESTS], at = v.t[FREE_ITEM];
    for (; left > 0; left--) {
        if (at >= v.q) {
            return false;
        }
        const uint32_t *it = item(v, at);
        if ((it[OWNER] | it[TICKET] | it[EARLIER] | it[OWN_EARLIER] | it[OWN_LATER]) != 0) {
            return false;
        }
        at = it[LATER];
    }
    return at == NONE;
}

/* The refusal number, 0 for none. */
static uint32_t check(const uint32_t *t, size_t words) {
    if (words < HEADER) {
        return 2;
    }
    if (t[AT_MARK] != MARK || t[AT_Q] - 1 >= LARGEST) {
        return 3;
    }
    if (words < HEADER + ROW * (size_t)t[AT_Q]) {
        return 2;
    }
    struct view v = view((uint32_t *)t);
    for (int i = ZEROS; i < HEADER; i++) {
        if (t[i] != 0) {
            return 3;
        }
    }
    if (t[REQUESTS] > v.q || t[CLIENTS] > v.q) {
        return 3;
    }
    return clients_sound(v) && free_clients_sound(v) && buckets_sound(v) && items_sound(v) && free_items_sound(v) ? 0 : 3;
}

/* The calls. */

struct flat_left flat_arrive(uint32_t *t, size_t words, uint32_t id, uint32_t ticket) {
    uint32_t number = check(t, words);
    return number ? (struct flat_left){number, 0, 0, 0} : arrive(view(t), id, ticket);
}

struct flat_left flat_slide(uint32_t *t, size_t words, uint32_t id, uint32_t ticket) {
    uint32_t number = check(t, words);
    return number ? (struct flat_left){number, 0, 0, 0} : slide(view(t), id, ticket);
}

struct flat_left flat_serve(uint32_t *t, size_t words) {
    uint32_t number = check(t, words);
    return number ? (struct flat_left){number, 0, 0, 0} : serve(view(t));
}

uint32_t flat_count(const uint32_t *t, size_t words, uint32_t id, uint32_t *count) {
    uint32_t number = check(t, words);
    *count = 0;
    if (number == 0) {
        struct view v = view((uint32_t *)t);
        uint32_t c = find(v, id);
        *count = c == NONE ? 0 : client(v, c)[WAITING];
    }
    return number;
}

static inline uint32_t number_at(const uint8_t *bytes) {
    uint32_t x;
    memcpy(&x, bytes, sizeof x);
    return x;
}

static struct flat_sums carry_out(uint32_t *t, const uint8_t *commands, size_t bytes, uint64_t budget) {
    struct flat_sums sums = {0};
    struct view v = view(t);
    for (; bytes > 0; bytes -= 9, commands += 9, sums.done++) {
        if (sums.done == budget) {
            sums.stop = 1;
            return sums;
        }
        if (bytes < 9) {
            sums.stop = 7;
            return sums;
        }
        uint32_t id = number_at(commands + 1), ticket = number_at(commands + 5), happened;
        if (commands[0] == 1) {
            happened = arrive(v, id, ticket).happened;
            sums.joined += happened != FLAT_TURNED;
            sums.evicted += happened == FLAT_EVICTED;
            sums.turned += happened == FLAT_TURNED;
        } else if (commands[0] == 2) {
            sums.passed += slide(v, id, ticket).happened == FLAT_PASSED;
            sums.joined++;
        } else if (commands[0] == 3 && (id | ticket) == 0) {
            happened = serve(v).happened;
            sums.served += happened == FLAT_SERVED;
            sums.idle += happened != FLAT_SERVED;
        } else {
            sums.stop = 8;
            return sums;
        }
    }
    return sums;
}

struct flat_sums flat_run(uint32_t *t, size_t words, const uint8_t *commands, size_t bytes, uint64_t budget) {
    uint32_t number = check(t, words);
    return number ? (struct flat_sums){number, 0, 0, 0, 0, 0, 0, 0} : carry_out(t, commands, bytes, budget);
}
