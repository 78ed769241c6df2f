/* Document 01's session from C under W-203's arrival rule, step by step with replies and questions; who is turned away and who
 * evicts near the largest count; and the whiteboard's further sums. */
#include <stdio.h>

#include "boomspool.h"
#include "check.h"

enum { PLACES = 4, WORDS = 80, LARGEST = 1000, MOST_WORDS = 16016, ABSENT = 99 };

/* A client as the questions show it. */
struct client {
    uint32_t id, count, oldest, newest;
};

enum kind { ARRIVE, SLIDE, SERVE };

/* A step, what its reply says, and the clients since, heaviest first. */
struct step {
    enum kind kind;
    uint32_t id, ticket;
    uint32_t says, left_id, left_ticket;
    size_t clients;
    struct client shown[3];
};

static const struct step SESSION_STEPS[] = {
    { ARRIVE, 1, 10, BOOMSPOOL_JOINED, 0, 0, 1, { { 1, 1, 10, 10 } } },
    { ARRIVE, 1, 11, BOOMSPOOL_JOINED, 0, 0, 1, { { 1, 2, 10, 11 } } },
    { ARRIVE, 2, 12, BOOMSPOOL_JOINED, 0, 0, 2, { { 1, 2, 10, 11 }, { 2, 1, 12, 12 } } },
    { ARRIVE, 1, 13, BOOMSPOOL_JOINED, 0, 0, 2, { { 1, 3, 10, 13 }, { 2, 1, 12, 12 } } },
    { ARRIVE, 3, 14, BOOMSPOOL_EVICTED, 1, 13, 3, { { 1, 2, 10, 11 }, { 2, 1, 12, 12 }, { 3, 1, 14, 14 } } },
    { ARRIVE, 1, 15, BOOMSPOOL_TURNED_AWAY, 0, 0, 3, { { 1, 2, 10, 11 }, { 2, 1, 12, 12 }, { 3, 1, 14, 14 } } },
    { ARRIVE, 2, 16, BOOMSPOOL_TURNED_AWAY, 0, 0, 3, { { 1, 2, 10, 11 }, { 2, 1, 12, 12 }, { 3, 1, 14, 14 } } },
    { SLIDE, 3, 17, 1, 1, 10, 3, { { 3, 2, 14, 17 }, { 2, 1, 12, 12 }, { 1, 1, 11, 11 } } },
    { SERVE, 0, 0, 0, 1, 11, 2, { { 3, 2, 14, 17 }, { 2, 1, 12, 12 } } },
    { SERVE, 0, 0, 0, 2, 12, 1, { { 3, 2, 14, 17 } } },
    { SERVE, 0, 0, 0, 3, 14, 1, { { 3, 1, 17, 17 } } },
    { SERVE, 0, 0, 0, 3, 17, 0, { { 0, 0, 0, 0 } } },
    { SLIDE, 0, 0, 0, 0, 0, 1, { { 0, 1, 0, 0 } } },
    { ARRIVE, UINT32_MAX, UINT32_MAX, BOOMSPOOL_JOINED, 0, 0, 2,
      { { 0, 1, 0, 0 }, { UINT32_MAX, 1, UINT32_MAX, UINT32_MAX } } },
};

/* Five places, m = 3 and m - 1: the lower client would only change roles with the higher one, so both are turned away. An
 * absent client evicts, and then is at m - 1 itself. */
static const struct step ONE_APART_STEPS[] = {
    { ARRIVE, 1, 10, BOOMSPOOL_JOINED, 0, 0, 1, { { 1, 1, 10, 10 } } },
    { ARRIVE, 2, 11, BOOMSPOOL_JOINED, 0, 0, 2, { { 1, 1, 10, 10 }, { 2, 1, 11, 11 } } },
    { ARRIVE, 1, 12, BOOMSPOOL_JOINED, 0, 0, 2, { { 1, 2, 10, 12 }, { 2, 1, 11, 11 } } },
    { ARRIVE, 2, 13, BOOMSPOOL_JOINED, 0, 0, 2, { { 1, 2, 10, 12 }, { 2, 2, 11, 13 } } },
    { ARRIVE, 1, 14, BOOMSPOOL_JOINED, 0, 0, 2, { { 1, 3, 10, 14 }, { 2, 2, 11, 13 } } },
    { ARRIVE, 2, 15, BOOMSPOOL_TURNED_AWAY, 0, 0, 2, { { 1, 3, 10, 14 }, { 2, 2, 11, 13 } } },
    { ARRIVE, 1, 16, BOOMSPOOL_TURNED_AWAY, 0, 0, 2, { { 1, 3, 10, 14 }, { 2, 2, 11, 13 } } },
    { ARRIVE, 3, 17, BOOMSPOOL_EVICTED, 1, 14, 3, { { 2, 2, 11, 13 }, { 1, 2, 10, 12 }, { 3, 1, 17, 17 } } },
    { ARRIVE, 3, 18, BOOMSPOOL_TURNED_AWAY, 0, 0, 3, { { 2, 2, 11, 13 }, { 1, 2, 10, 12 }, { 3, 1, 17, 17 } } },
};

/* Four places, m = 3 and m - 2: the lower client evicts once, then both have 2 and both are turned away. The heaviest is served
 * and moves past the other to the lightest end; there is room again, and the client with m joins. */
static const struct step TWO_APART_STEPS[] = {
    { ARRIVE, 1, 10, BOOMSPOOL_JOINED, 0, 0, 1, { { 1, 1, 10, 10 } } },
    { ARRIVE, 1, 11, BOOMSPOOL_JOINED, 0, 0, 1, { { 1, 2, 10, 11 } } },
    { ARRIVE, 1, 12, BOOMSPOOL_JOINED, 0, 0, 1, { { 1, 3, 10, 12 } } },
    { ARRIVE, 2, 13, BOOMSPOOL_JOINED, 0, 0, 2, { { 1, 3, 10, 12 }, { 2, 1, 13, 13 } } },
    { ARRIVE, 2, 14, BOOMSPOOL_EVICTED, 1, 12, 2, { { 1, 2, 10, 11 }, { 2, 2, 13, 14 } } },
    { ARRIVE, 2, 15, BOOMSPOOL_TURNED_AWAY, 0, 0, 2, { { 1, 2, 10, 11 }, { 2, 2, 13, 14 } } },
    { ARRIVE, 1, 16, BOOMSPOOL_TURNED_AWAY, 0, 0, 2, { { 1, 2, 10, 11 }, { 2, 2, 13, 14 } } },
    { SERVE, 0, 0, 0, 1, 10, 2, { { 2, 2, 13, 14 }, { 1, 1, 11, 11 } } },
    { ARRIVE, 2, 17, BOOMSPOOL_JOINED, 0, 0, 2, { { 2, 3, 13, 17 }, { 1, 1, 11, 11 } } },
};

/* Two places: an absent client evicts where m = 2, and where m = 1 everybody is turned away, absent or not. */
static const struct step ALL_EQUAL_STEPS[] = {
    { ARRIVE, 7, 10, BOOMSPOOL_JOINED, 0, 0, 1, { { 7, 1, 10, 10 } } },
    { ARRIVE, 7, 11, BOOMSPOOL_JOINED, 0, 0, 1, { { 7, 2, 10, 11 } } },
    { ARRIVE, 8, 12, BOOMSPOOL_EVICTED, 7, 11, 2, { { 7, 1, 10, 10 }, { 8, 1, 12, 12 } } },
    { ARRIVE, 9, 13, BOOMSPOOL_TURNED_AWAY, 0, 0, 2, { { 7, 1, 10, 10 }, { 8, 1, 12, 12 } } },
    { ARRIVE, 8, 14, BOOMSPOOL_TURNED_AWAY, 0, 0, 2, { { 7, 1, 10, 10 }, { 8, 1, 12, 12 } } },
    { ARRIVE, 7, 15, BOOMSPOOL_TURNED_AWAY, 0, 0, 2, { { 7, 1, 10, 10 }, { 8, 1, 12, 12 } } },
};

/* Steps from a fresh lay-out. */
struct story {
    size_t places;
    const struct step *steps;
    size_t count;
};

#define STORY(places, steps) { (places), (steps), sizeof(steps) / sizeof(steps)[0] }

static const struct story SESSION = STORY(PLACES, SESSION_STEPS);
static const struct story ONE_APART = STORY(5, ONE_APART_STEPS);
static const struct story TWO_APART = STORY(4, TWO_APART_STEPS);
static const struct story ALL_EQUAL = STORY(2, ALL_EQUAL_STEPS);

static void take(struct lent *t, const struct step *s)
{
    if (s->kind == ARRIVE) {
        const struct boomspool_arrived r = boomspool_arrive(t->words, t->count, s->id, s->ticket);
        CHECK(r.number == BOOMSPOOL_OK && r.happened == s->says);
        CHECK(r.id == s->left_id && r.ticket == s->left_ticket);
        CHECK(r.happened != BOOMSPOOL_TURNED_AWAY || lent_same(t, 0));
    } else if (s->kind == SLIDE) {
        const struct boomspool_slid r = boomspool_slide(t->words, t->count, s->id, s->ticket);
        CHECK(r.number == BOOMSPOOL_OK && r.passed == s->says);
        CHECK(r.id == s->left_id && r.ticket == s->left_ticket);
    } else {
        const struct boomspool_served r = boomspool_serve(t->words, t->count);
        CHECK(r.number == BOOMSPOOL_OK && r.id == s->left_id && r.ticket == s->left_ticket);
    }
    CHECK(lent_guarded(t));
}

/* Both listings of the first k clients, into an output of n words that are enough. */
static void lists(const struct lent *t, const struct step *s, size_t k, size_t n, enum lent_behind behind)
{
    const size_t given = k < s->clients ? k : s->clients;
    struct lent out = lent_of(n, behind);
    struct boomspool_listed r = boomspool_heaviest(t->words, t->count, k, out.words, out.count);
    CHECK(r.number == BOOMSPOOL_OK && r.pairs == given);
    for (size_t i = 0; i < given; i++) {
        CHECK(out.words[2 * i] == s->shown[i].id && out.words[2 * i + 1] == s->shown[i].count);
    }
    r = boomspool_lightest(t->words, t->count, k, out.words, out.count);
    CHECK(r.number == BOOMSPOOL_OK && r.pairs == given);
    for (size_t i = 0; i < given; i++) {
        const struct client *c = &s->shown[s->clients - 1 - i];
        CHECK(out.words[2 * i] == c->id && out.words[2 * i + 1] == c->count);
    }
    CHECK(lent_same(&out, 2 * given) && lent_guarded(&out));
    lent_back(&out);
}

static void asks(struct lent *t, const struct step *s)
{
    lent_note(t);
    lists(t, s, SIZE_MAX, 2 * s->clients, NO_PAGE);
    lists(t, s, SIZE_MAX, 2 * s->clients, GUARDS);
    lists(t, s, s->clients, 2 * s->clients + 3, GUARDS);
    lists(t, s, 1, 2, NO_PAGE);
    lists(t, s, 0, 0, NO_PAGE);
    for (size_t i = 0; i < s->clients; i++) {
        const struct client *c = &s->shown[i];
        const struct boomspool_counted n = boomspool_count(t->words, t->count, c->id);
        const struct boomspool_told o = boomspool_oldest(t->words, t->count, c->id);
        const struct boomspool_told y = boomspool_newest(t->words, t->count, c->id);
        CHECK(n.number == BOOMSPOOL_OK && n.count == c->count);
        CHECK(o.number == BOOMSPOOL_OK && o.ticket == c->oldest);
        CHECK(y.number == BOOMSPOOL_OK && y.ticket == c->newest);
    }
    const struct boomspool_counted n = boomspool_count(t->words, t->count, ABSENT);
    CHECK(n.number == BOOMSPOOL_OK && n.count == 0);
    CHECK(lent_same(t, 0) && lent_guarded(t));
}

/* The steps in a table that is lent with so many words: those beyond the table stay. */
static void walk(const char *part, const struct story *s, size_t words, enum lent_behind behind)
{
    struct lent t = lent_of(words, behind);
    CHECK(boomspool_lay_out(t.words, t.count, s->places) == BOOMSPOOL_OK);
    for (size_t i = 0; i < s->count; i++) {
        check_case(part, i + 1);
        take(&t, &s->steps[i]);
        CHECK(lent_same(&t, boomspool_words(s->places)));
        asks(&t, &s->steps[i]);
    }
    lent_back(&t);
    check_part(part);
}

/* One place, held by client 7: every arrival is turned away, another client's too; a slide passes it. */
static void one_place(void)
{
    static const struct step HELD = { ARRIVE, 7, 1, BOOMSPOOL_JOINED, 0, 0, 1, { { 7, 1, 1, 1 } } };
    static const struct step OTHER = { ARRIVE, 8, 2, BOOMSPOOL_TURNED_AWAY, 0, 0, 1, { { 7, 1, 1, 1 } } };
    static const struct step SAME = { ARRIVE, 7, 2, BOOMSPOOL_TURNED_AWAY, 0, 0, 1, { { 7, 1, 1, 1 } } };
    static const struct step OTHER_SLIDES = { SLIDE, 8, 3, 1, 7, 1, 1, { { 8, 1, 3, 3 } } };
    static const struct step SAME_SLIDES = { SLIDE, 7, 3, 1, 7, 1, 1, { { 7, 1, 3, 3 } } };
    static const struct step *const THEN[] = { &OTHER, &SAME, &OTHER_SLIDES, &SAME_SLIDES };
    for (size_t i = 0; i < sizeof THEN / sizeof THEN[0]; i++) {
        check_case("one place", i + 1);
        struct lent t = lent_of(boomspool_words(1), NO_PAGE);
        CHECK(boomspool_lay_out(t.words, t.count, 1) == BOOMSPOOL_OK);
        take(&t, &HELD);
        lent_note(&t);
        take(&t, THEN[i]);
        asks(&t, THEN[i]);
        lent_back(&t);
    }
    check_part("one place");
}

/* The largest table, full of ten clients' requests: who waits longest is served first. */
static void largest(void)
{
    struct lent t = lent_of(MOST_WORDS, NO_PAGE);
    CHECK(boomspool_lay_out(t.words, t.count, LARGEST) == BOOMSPOOL_OK);
    for (uint32_t i = 0; i < LARGEST; i++) {
        check_case("the largest table, arrive", i);
        CHECK(boomspool_arrive(t.words, t.count, i % 10, i).happened == BOOMSPOOL_JOINED);
    }
    CHECK(boomspool_arrive(t.words, t.count, 0, 0).happened == BOOMSPOOL_TURNED_AWAY);
    struct lent out = lent_of(20, NO_PAGE);
    CHECK(boomspool_heaviest(t.words, t.count, SIZE_MAX, out.words, out.count).pairs == 10);
    for (uint32_t i = 0; i < 10; i++) {
        CHECK(out.words[2 * i] == i && out.words[2 * i + 1] == LARGEST / 10);
        CHECK(boomspool_oldest(t.words, t.count, i).ticket == i);
        CHECK(boomspool_newest(t.words, t.count, i).ticket == LARGEST - 10 + i);
    }
    for (uint32_t i = 0; i < LARGEST; i++) {
        check_case("the largest table, serve", i);
        const struct boomspool_served r = boomspool_serve(t.words, t.count);
        CHECK(r.number == BOOMSPOOL_OK && r.id == i % 10 && r.ticket == i);
    }
    CHECK(boomspool_serve(t.words, t.count).number == BOOMSPOOL_NOBODY);
    CHECK(lent_guarded(&t) && lent_guarded(&out));
    lent_back(&out);
    lent_back(&t);
    check_part("the largest table");
}

int main(void)
{
    walk("the session in exactly 80 words", &SESSION, WORDS, GUARDS);
    walk("the session in 80 words at a page's end", &SESSION, WORDS, NO_PAGE);
    walk("the session in 100 words", &SESSION, 100, GUARDS);
    walk("two clients at m and m - 1", &ONE_APART, boomspool_words(5), NO_PAGE);
    walk("two clients at m and m - 2", &TWO_APART, boomspool_words(4), NO_PAGE);
    walk("all clients at 1", &ALL_EQUAL, boomspool_words(2), NO_PAGE);
    one_place();
    largest();
    check_end();
    return 0;
}
