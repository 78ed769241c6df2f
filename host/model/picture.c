/* A table as lists of rows, drawn as document 01 lists the words. */
#include "picture.h"
#include "soundness.h"
#include <string.h>

static void append(struct rows *l, uint32_t row) { l->row[l->length++] = row; }

static void copy_rows(struct rows *to, const struct rows *from) {
    to->length = from->length;
    memcpy(to->row, from->row, from->length * sizeof to->row[0]);
}

static uint32_t first_of(const struct rows *l) { return l->length ? l->row[0] : NONE; }
static uint32_t last_of(const struct rows *l) { return l->length ? l->row[l->length - 1] : NONE; }

static void follow(struct rows *l, const uint32_t *t, uint32_t first, size_t base, size_t width, size_t word) {
    for (uint32_t at = first; at != NONE; at = t[base + width * at + word]) {
        append(l, at);
    }
}

void picture_read(struct picture *p, const uint32_t *t, size_t q) {
    size_t clients = client_at(q, 0, 0);
    p->q = q;
    p->window.length = p->free_items.length = p->order.length = p->free_clients.length = p->chains.length = 0;
    follow(&p->window, t, t[H_FRONT], item_at(0, 0), ITEM_WORDS, I_LATER);
    follow(&p->free_items, t, t[H_FREE_ITEM], item_at(0, 0), ITEM_WORDS, I_LATER);
    copy_rows(&p->own, &p->window);
    for (size_t i = 0; i < p->window.length; i++) {
        uint32_t row = p->window.row[i];
        p->owner[row] = t[item_at(row, I_CLIENT)];
        p->ticket[row] = t[item_at(row, I_TICKET)];
    }
    follow(&p->order, t, t[H_LIGHTEST], clients, CLIENT_WORDS, C_HEAVIER);
    follow(&p->free_clients, t, t[H_FREE_CLIENT], clients, CLIENT_WORDS, C_HEAVIER);
    for (size_t i = 0; i < p->order.length; i++) {
        uint32_t row = p->order.row[i];
        p->id[row] = t[client_at(q, row, C_ID)];
        p->count[row] = t[client_at(q, row, C_COUNT)];
        p->bucket[row] = (uint32_t)bucket_of(p->id[row], q);
    }
    for (size_t b = 0; b < q; b++) {
        follow(&p->chains, t, t[bucket_at(q, b)], clients, CLIENT_WORDS, C_NEXT);
    }
}

/* Writes the links of a list both ways; a width of words a row. */
static void draw_both_ways(const struct rows *l, uint32_t *t, size_t base, size_t width, size_t back, size_t forth) {
    for (size_t i = 0; i < l->length; i++) {
        uint32_t *row = &t[base + width * l->row[i]];
        row[back] = i > 0 ? l->row[i - 1] : NONE;
        row[forth] = i + 1 < l->length ? l->row[i + 1] : NONE;
    }
}

static void draw_free(const struct rows *l, uint32_t *t, size_t base, size_t width, size_t word) {
    for (size_t i = 0; i < l->length; i++) {
        t[base + width * l->row[i] + word] = i + 1 < l->length ? l->row[i + 1] : NONE;
    }
}

static void draw_items(const struct picture *p, uint32_t *t) {
    for (size_t i = 0; i < p->window.length; i++) {
        uint32_t row = p->window.row[i];
        t[item_at(row, I_CLIENT)] = p->owner[row];
        t[item_at(row, I_TICKET)] = p->ticket[row];
    }
    draw_both_ways(&p->window, t, item_at(0, 0), ITEM_WORDS, I_EARLIER, I_LATER);
    draw_free(&p->free_items, t, item_at(0, 0), ITEM_WORDS, I_LATER);
}

/* The own lists in one pass: the last item met of each client. */
static void draw_own(const struct picture *p, uint32_t *t) {
    for (size_t i = 0; i < p->order.length; i++) {
        t[client_at(p->q, p->order.row[i], C_OLDEST)] = NONE;
        t[client_at(p->q, p->order.row[i], C_NEWEST)] = NONE;
    }
    for (size_t i = 0; i < p->own.length; i++) {
        uint32_t row = p->own.row[i], owner = p->owner[row];
        uint32_t *newest = &t[client_at(p->q, owner, C_NEWEST)], *oldest = &t[client_at(p->q, owner, C_OLDEST)];
        t[item_at(row, I_OWN_EARLIER)] = *newest;
        t[item_at(row, I_OWN_LATER)] = NONE;
        if (*newest < p->q) {
            t[item_at(*newest, I_OWN_LATER)] = row;
        } else {
            *oldest = row;
        }
        *newest = row;
    }
}

static void draw_clients(const struct picture *p, uint32_t *t) {
    size_t q = p->q;
    for (size_t i = 0; i < p->order.length; i++) {
        uint32_t row = p->order.row[i], count = p->count[row];
        t[client_at(q, row, C_ID)] = p->id[row];
        t[client_at(q, row, C_COUNT)] = count;
        if (count >= 1 && count <= q) {
            uint32_t *ends = &t[count_at(q, count, 0)];
            ends[N_LIGHT_END] = ends[N_LIGHT_END] == NONE ? row : ends[N_LIGHT_END];
            ends[N_HEAVY_END] = row;
        }
    }
    draw_both_ways(&p->order, t, client_at(q, 0, 0), CLIENT_WORDS, C_LIGHTER, C_HEAVIER);
    draw_free(&p->free_clients, t, client_at(q, 0, 0), CLIENT_WORDS, C_HEAVIER);
}

/* Each row at the front of its bucket, from the last to the first. */
static void draw_chains(const struct picture *p, uint32_t *t) {
    for (size_t i = p->chains.length; i-- > 0;) {
        uint32_t row = p->chains.row[i];
        uint32_t *head = &t[bucket_at(p->q, p->bucket[row])];
        t[client_at(p->q, row, C_NEXT)] = *head;
        *head = row;
    }
}

void picture_draw(const struct picture *p, uint32_t *t) {
    size_t q = p->q;
    memset(t, 0, words_of(q) * sizeof t[0]);
    memset(&t[count_at(q, 1, 0)], 0xFF, (COUNT_WORDS + BUCKET_WORDS) * q * sizeof t[0]);
    t[H_MARK] = MARK;
    t[H_Q] = (uint32_t)q;
    t[H_REQUESTS] = (uint32_t)p->window.length;
    t[H_CLIENTS] = (uint32_t)p->order.length;
    t[H_FRONT] = first_of(&p->window);
    t[H_BACK] = last_of(&p->window);
    t[H_LIGHTEST] = first_of(&p->order);
    t[H_HEAVIEST] = last_of(&p->order);
    t[H_FREE_ITEM] = first_of(&p->free_items);
    t[H_FREE_CLIENT] = first_of(&p->free_clients);
    draw_items(p, t);
    draw_clients(p, t);
    draw_own(p, t);
    draw_chains(p, t);
}

static void permute(uint32_t *v, size_t n, struct dice *d) {
    for (size_t i = n; i > 1; i--) {
        size_t j = below(d, i);
        uint32_t x = v[i - 1];
        v[i - 1] = v[j];
        v[j] = x;
    }
}

/* Lightest first, and clients of equal counts as they come. */
static void sort_order(struct picture *p) {
    for (size_t i = 1; i < p->order.length; i++) {
        uint32_t row = p->order.row[i];
        size_t at = i;
        for (; at > 0 && p->count[p->order.row[at - 1]] > p->count[row]; at--) {
            p->order.row[at] = p->order.row[at - 1];
        }
        p->order.row[at] = row;
    }
}

static uint32_t row_with_id(struct picture *p, uint32_t id) {
    for (size_t i = 0; i < p->order.length; i++) {
        if (p->id[p->order.row[i]] == id) {
            return p->order.row[i];
        }
    }
    uint32_t row = p->free_clients.row[--p->free_clients.length];
    append(&p->order, row);
    p->id[row] = id;
    p->bucket[row] = (uint32_t)bucket_of(id, p->q);
    return row;
}

static void all_rows(struct rows *l, size_t q, struct dice *d) {
    l->length = 0;
    for (uint32_t row = 0; row < q; row++) {
        append(l, row);
    }
    permute(l->row, q, d);
}

void picture_random(struct picture *p, size_t q, size_t requests, const uint32_t *palette, size_t ids, struct dice *d) {
    memset(p, 0, sizeof *p);
    p->q = q;
    all_rows(&p->free_items, q, d);
    all_rows(&p->free_clients, q, d);
    for (size_t i = 0; i < requests; i++) {
        uint32_t item = p->free_items.row[--p->free_items.length];
        uint32_t row = row_with_id(p, palette[below(d, ids)]);
        append(&p->window, item);
        p->owner[item] = row;
        p->ticket[item] = (uint32_t)(roll(d) % 8 ? below(d, 100) : roll(d));
        p->count[row]++;
    }
    copy_rows(&p->own, &p->window);
    permute(p->order.row, p->order.length, d);
    sort_order(p);
    copy_rows(&p->chains, &p->order);
    permute(p->chains.row, p->chains.length, d);
}

static void renumber(struct rows *l, const uint32_t *to) {
    for (size_t i = 0; i < l->length; i++) {
        l->row[i] = to[l->row[i]];
    }
}

static void carry(uint32_t *column, const uint32_t *to, size_t q) {
    uint32_t old[LARGEST_Q];
    memcpy(old, column, q * sizeof old[0]);
    for (size_t row = 0; row < q; row++) {
        column[to[row]] = old[row];
    }
}

static void renumber_items(struct picture *p, struct dice *d) {
    struct rows to;
    all_rows(&to, p->q, d);
    renumber(&p->window, to.row);
    renumber(&p->free_items, to.row);
    renumber(&p->own, to.row);
    carry(p->owner, to.row, p->q);
    carry(p->ticket, to.row, p->q);
}

static void renumber_clients(struct picture *p, struct dice *d) {
    struct rows to;
    all_rows(&to, p->q, d);
    for (size_t i = 0; i < p->window.length; i++) {
        uint32_t item = p->window.row[i];
        p->owner[item] = to.row[p->owner[item]];
    }
    renumber(&p->order, to.row);
    renumber(&p->free_clients, to.row);
    renumber(&p->chains, to.row);
    carry(p->id, to.row, p->q);
    carry(p->count, to.row, p->q);
    carry(p->bucket, to.row, p->q);
}

void picture_rearrange(struct picture *p, struct dice *d) {
    renumber_items(p, d);
    renumber_clients(p, d);
    permute(p->free_items.row, p->free_items.length, d);
    permute(p->free_clients.row, p->free_clients.length, d);
    permute(p->chains.row, p->chains.length, d);
    permute(p->order.row, p->order.length, d);
    sort_order(p);
}

static uint32_t take_out(struct rows *l, size_t at) {
    uint32_t row = l->row[at];
    l->length--;
    memmove(&l->row[at], &l->row[at + 1], (l->length - at) * sizeof l->row[0]);
    return row;
}

static void put_in(struct rows *l, size_t at, uint32_t row) {
    memmove(&l->row[at + 1], &l->row[at], (l->length - at) * sizeof l->row[0]);
    l->row[at] = row;
    l->length++;
}

/* A list loses a row, has one twice, one elsewhere, two exchanged, or one more. */
static void spoil_list(struct rows *l, size_t q, struct dice *d) {
    size_t what = below(d, 5);
    if (l->length == 0 || what == 4) {
        put_in(l, below(d, l->length + 1), (uint32_t)below(d, q));
        return;
    }
    size_t at = below(d, l->length);
    if (what == 0) {
        take_out(l, at);
    } else if (what == 1) {
        put_in(l, below(d, l->length + 1), l->row[at]);
    } else if (what == 2) {
        uint32_t row = take_out(l, at);
        put_in(l, below(d, l->length + 1), row);
    } else {
        size_t other = below(d, l->length);
        uint32_t row = l->row[at];
        l->row[at] = l->row[other];
        l->row[other] = row;
    }
}

/* A row of one list goes over to another. */
static void move_over(struct rows *from, struct rows *to, struct dice *d) {
    if (from->length > 0) {
        put_in(to, below(d, to->length + 1), take_out(from, below(d, from->length)));
    }
}

static void spoil_value(struct picture *p, struct dice *d) {
    size_t what = below(d, 6);
    if (p->order.length == 0 || p->window.length == 0) {
        spoil_list(&p->order, p->q, d);
        return;
    }
    uint32_t row = p->order.row[below(d, p->order.length)];
    uint32_t other = p->order.row[below(d, p->order.length)];
    if (what == 0) {
        p->count[row] += below(d, 2) ? 1 : (uint32_t)-1;
        if (below(d, 2)) {
            sort_order(p);
        }
    } else if (what == 1) {
        p->id[row] = p->id[other];
    } else if (what == 2) {
        p->id[row] = p->id[other];
        p->bucket[row] = p->bucket[other];
    } else if (what == 3) {
        p->bucket[row] = (uint32_t)below(d, p->q);
    } else if (what == 4) {
        p->owner[p->window.row[below(d, p->window.length)]] = (uint32_t)below(d, p->q);
    } else {
        uint32_t count = p->count[row];
        p->count[row] = p->count[other];
        p->count[other] = count;
        sort_order(p);
    }
}

void picture_spoil(struct picture *p, struct dice *d) {
    struct rows *lists[] = {&p->window, &p->free_items, &p->own, &p->order, &p->free_clients, &p->chains};
    size_t what = below(d, 12);
    if (what < 6) {
        spoil_list(lists[what], p->q, d);
    } else if (what == 6) {
        move_over(&p->window, &p->free_items, d);
    } else if (what == 7) {
        move_over(&p->free_items, &p->window, d);
    } else if (what == 8) {
        move_over(&p->order, &p->free_clients, d);
    } else if (what == 9) {
        move_over(&p->free_clients, &p->order, d);
    } else {
        spoil_value(p, d);
    }
}

void picture_model(const struct picture *p, struct model *m) {
    model_empty(m, p->q);
    for (size_t i = 0; i < p->window.length; i++) {
        uint32_t item = p->window.row[i];
        m->window[m->requests++] = (struct request){p->id[p->owner[item]], p->ticket[item]};
    }
    for (size_t i = 0; i < p->order.length; i++) {
        uint32_t row = p->order.row[i];
        m->order[m->clients++] = (struct client){p->id[row], p->count[row]};
    }
}
