/* Document 01's 'Sound' paragraph, one function a clause, with marks and searches wherever they say it plainly. */
#include "soundness.h"
#include "words.h"
#include <stdbool.h>
#include <string.h>

/* The rows that links visit, in their order. */
struct visit { size_t rows; uint32_t row[LARGEST_Q]; };

static bool among(const struct visit *v, uint32_t row) {
    for (size_t i = 0; i < v->rows; i++) {
        if (v->row[i] == row) {
            return true;
        }
    }
    return false;
}

/* Follows links from a first row: word `word` of a row that begins at `base` and has `width` words leads to the next.
   False where a link is no row or comes to a row again. */
static bool follow(const uint32_t *t, size_t q, uint32_t first, size_t base, size_t width, size_t word, struct visit *v) {
    bool met[LARGEST_Q] = {false};
    v->rows = 0;
    for (uint32_t at = first; at != NONE; at = t[base + width * at + word]) {
        if (at >= q || met[at]) {
            return false;
        }
        met[at] = true;
        v->row[v->rows++] = at;
    }
    return true;
}

static bool mirrored(const struct visit *there, const struct visit *back) {
    if (there->rows != back->rows) {
        return false;
    }
    for (size_t i = 0; i < there->rows; i++) {
        if (there->row[i] != back->row[back->rows - 1 - i]) {
            return false;
        }
    }
    return true;
}

static uint32_t word_of_client(const uint32_t *t, size_t q, uint32_t row, size_t word) { return t[client_at(q, row, word)]; }

/* The window links visit as many item rows as the header says, the same both ways. */
static bool window_links(const uint32_t *t, size_t q, struct visit *window) {
    struct visit back;
    return follow(t, q, t[H_FRONT], item_at(0, 0), ITEM_WORDS, I_LATER, window) && window->rows == t[H_REQUESTS] &&
           follow(t, q, t[H_BACK], item_at(0, 0), ITEM_WORDS, I_EARLIER, &back) && mirrored(window, &back);
}

/* Likewise the client links. */
static bool client_links(const uint32_t *t, size_t q, struct visit *clients) {
    struct visit back;
    size_t base = client_at(q, 0, 0);
    return follow(t, q, t[H_LIGHTEST], base, CLIENT_WORDS, C_HEAVIER, clients) && clients->rows == t[H_CLIENTS] &&
           follow(t, q, t[H_HEAVIEST], base, CLIENT_WORDS, C_LIGHTER, &back) && mirrored(clients, &back);
}

/* With counts from 1 up never falling. */
static bool counts_never_fall(const uint32_t *t, size_t q, const struct visit *clients) {
    uint32_t before = 1;
    for (size_t i = 0; i < clients->rows; i++) {
        uint32_t count = word_of_client(t, q, clients->row[i], C_COUNT);
        if (count < before) {
            return false;
        }
        before = count;
    }
    return true;
}

/* And ids distinct. */
static bool ids_distinct(const uint32_t *t, size_t q, const struct visit *clients) {
    for (size_t i = 0; i < clients->rows; i++) {
        for (size_t j = 0; j < i; j++) {
            if (word_of_client(t, q, clients->row[i], C_ID) == word_of_client(t, q, clients->row[j], C_ID)) {
                return false;
            }
        }
    }
    return true;
}

/* Each waiting item's client row is one of these clients. */
static bool items_have_clients(const uint32_t *t, const struct visit *window, const struct visit *clients) {
    for (size_t i = 0; i < window->rows; i++) {
        if (!among(clients, t[item_at(window->row[i], I_CLIENT)])) {
            return false;
        }
    }
    return true;
}

/* This client's own list has exactly its items, in window order, the same both ways, as many as its count. */
static bool own_list(const uint32_t *t, size_t q, const struct visit *window, uint32_t client) {
    struct visit expected, own, back;
    expected.rows = 0;
    for (size_t i = 0; i < window->rows; i++) {
        if (t[item_at(window->row[i], I_CLIENT)] == client) {
            expected.row[expected.rows++] = window->row[i];
        }
    }
    uint32_t oldest = word_of_client(t, q, client, C_OLDEST), newest = word_of_client(t, q, client, C_NEWEST);
    return follow(t, q, oldest, item_at(0, 0), ITEM_WORDS, I_OWN_LATER, &own) && own.rows == expected.rows &&
           memcmp(own.row, expected.row, own.rows * sizeof own.row[0]) == 0 &&
           follow(t, q, newest, item_at(0, 0), ITEM_WORDS, I_OWN_EARLIER, &back) && mirrored(&own, &back) &&
           own.rows == word_of_client(t, q, client, C_COUNT);
}

static bool own_lists(const uint32_t *t, size_t q, const struct visit *window, const struct visit *clients) {
    for (size_t i = 0; i < clients->rows; i++) {
        if (!own_list(t, q, window, clients->row[i])) {
            return false;
        }
    }
    return true;
}

/* Each count row holds the ends of its group, or none twice. */
static bool count_rows(const uint32_t *t, size_t q, const struct visit *clients) {
    for (size_t count = 1; count <= q; count++) {
        uint32_t light = NONE, heavy = NONE;
        for (size_t i = 0; i < clients->rows; i++) {
            if (word_of_client(t, q, clients->row[i], C_COUNT) == count) {
                light = light == NONE ? clients->row[i] : light;
                heavy = clients->row[i];
            }
        }
        if (t[count_at(q, count, N_LIGHT_END)] != light || t[count_at(q, count, N_HEAVY_END)] != heavy) {
            return false;
        }
    }
    return true;
}

static const uint32_t *spread_table(void) {
    static uint32_t entry[1024];
    if (entry[0] == 0) {
        entry[0] = 1;
        for (size_t i = 1; i < 1024; i++) {
            entry[i] = (uint32_t)((uint64_t)entry[i - 1] * 48271u % 2147483647u);
        }
    }
    return entry;
}

size_t bucket_of(uint32_t id, size_t q) {
    const uint32_t *entry = spread_table();
    uint64_t sum = 0;
    for (size_t j = 0; j < 4; j++) {
        sum += entry[256 * j + (id >> (8 * j)) % 256];
    }
    return (size_t)(sum % q);
}

/* Each client stands in its id's bucket chain once, and chains hold nobody else. */
static bool bucket_chains(const uint32_t *t, size_t q, const struct visit *clients) {
    struct visit chain;
    size_t standing = 0;
    for (size_t b = 0; b < q; b++) {
        if (!follow(t, q, t[bucket_at(q, b)], client_at(q, 0, 0), CLIENT_WORDS, C_NEXT, &chain)) {
            return false;
        }
        for (size_t i = 0; i < chain.rows; i++) {
            uint32_t row = chain.row[i];
            if (!among(clients, row) || bucket_of(word_of_client(t, q, row, C_ID), q) != b) {
                return false;
            }
            standing++;
        }
    }
    /* A chain repeats no row and an id has one bucket, so as many places as clients are all of them. */
    return standing == clients->rows;
}

/* The rest of the rows are in the free chain once each, with zeros but for the chain's word. */
static bool free_rows(const uint32_t *t, size_t q, uint32_t first, size_t base, size_t width, size_t word, const struct visit *taken) {
    struct visit chain;
    if (!follow(t, q, first, base, width, word, &chain) || chain.rows + taken->rows != q) {
        return false;
    }
    for (size_t i = 0; i < chain.rows; i++) {
        if (among(taken, chain.row[i])) {
            return false;
        }
        for (size_t f = 0; f < width; f++) {
            if (f != word && t[base + width * chain.row[i] + f] != 0) {
                return false;
            }
        }
    }
    return true;
}

static bool six_zeros(const uint32_t *t) {
    for (size_t i = H_ZEROS; i < HEADER_WORDS; i++) {
        if (t[i] != 0) {
            return false;
        }
    }
    return true;
}

const char *broken_clause(const uint32_t *t, size_t q) {
    struct visit window, clients;
    if (t[H_MARK] != MARK || !six_zeros(t)) {
        return "mark and zeros";
    }
    if (t[H_Q] != q || q < 1 || q > LARGEST_Q) {
        return "Q in range";
    }
    if (!window_links(t, q, &window)) {
        return "window links";
    }
    if (!client_links(t, q, &clients)) {
        return "client links";
    }
    if (!counts_never_fall(t, q, &clients)) {
        return "counts never fall";
    }
    if (!ids_distinct(t, q, &clients)) {
        return "ids distinct";
    }
    if (!items_have_clients(t, &window, &clients)) {
        return "items have clients";
    }
    if (!own_lists(t, q, &window, &clients)) {
        return "own lists";
    }
    if (!count_rows(t, q, &clients)) {
        return "count rows";
    }
    if (!bucket_chains(t, q, &clients)) {
        return "bucket chains";
    }
    if (!free_rows(t, q, t[H_FREE_ITEM], item_at(0, 0), ITEM_WORDS, I_LATER, &window)) {
        return "free items";
    }
    if (!free_rows(t, q, t[H_FREE_CLIENT], client_at(q, 0, 0), CLIENT_WORDS, C_HEAVIER, &clients)) {
        return "free clients";
    }
    return NULL;
}

uint32_t refusal(const uint32_t *t, size_t words) {
    if (words < HEADER_WORDS) {
        return 2;
    }
    if (t[H_MARK] != MARK || t[H_Q] < 1 || t[H_Q] > LARGEST_Q) {
        return 3;
    }
    if (words < words_of(t[H_Q])) {
        return 2;
    }
    return broken_clause(t, t[H_Q]) == NULL ? 0 : 3;
}
