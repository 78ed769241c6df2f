/* Every refusal number of every call from C: what is refused, in which order it is tested, and that nothing is written. */
#include <stdio.h>
#include <string.h>

#include "boomspool.h"
#include "check.h"

enum { PLACES = 4, WORDS = 80, LARGEST = 1000, MOST_WORDS = 16016, ABSENT = 99, WHOLE = 1000000 };

/* How many words a table of so many places takes. */
static void words(void)
{
    check_case("words", 0);
    CHECK(boomspool_words(0) == 0);
    CHECK(boomspool_words(1) == 32);
    CHECK(boomspool_words(PLACES) == WORDS);
    CHECK(boomspool_words(LARGEST) == MOST_WORDS);
    CHECK(boomspool_words(LARGEST + 1) == 0);
    CHECK(boomspool_words(65540) == 0);
    CHECK(boomspool_words(((size_t)1 << 32) + 4) == 0);
    CHECK(boomspool_words(SIZE_MAX) == 0);
    check_part("words of a table");
}

/* Lay-out in so many words: places first, then the room. */
static void lays_out(size_t count, size_t places, uint32_t number)
{
    for (int behind = GUARDS; behind <= NO_PAGE; behind++) {
        struct lent t = lent_of(count, (enum lent_behind)behind);
        CHECK(boomspool_lay_out(t.words, t.count, places) == number);
        CHECK(lent_same(&t, number == BOOMSPOOL_OK ? boomspool_words(places) : 0) && lent_guarded(&t));
        CHECK(number != BOOMSPOOL_OK || boomspool_count(t.words, t.count, ABSENT).number == BOOMSPOOL_OK);
        lent_back(&t);
    }
}

static void lay_out(void)
{
    static const struct {
        size_t count, places;
        uint32_t number;
    } CASES[] = {
        { WORDS, 0, BOOMSPOOL_PLACES },
        { WORDS, LARGEST + 1, BOOMSPOOL_PLACES },
        { WORDS, 65540, BOOMSPOOL_PLACES },
        { WORDS, ((size_t)1 << 32) + 4, BOOMSPOOL_PLACES },
        { WORDS, SIZE_MAX, BOOMSPOOL_PLACES },
        { 0, 0, BOOMSPOOL_PLACES },
        { 15, LARGEST + 1, BOOMSPOOL_PLACES },
        { 0, PLACES, BOOMSPOOL_SHORT },
        { 15, 1, BOOMSPOOL_SHORT },
        { 31, 1, BOOMSPOOL_SHORT },
        { WORDS - 1, PLACES, BOOMSPOOL_SHORT },
        { MOST_WORDS - 1, LARGEST, BOOMSPOOL_SHORT },
        { 32, 1, BOOMSPOOL_OK },
        { WORDS, PLACES, BOOMSPOOL_OK },
        { WORDS + 20, PLACES, BOOMSPOOL_OK },
        { MOST_WORDS, LARGEST, BOOMSPOOL_OK },
    };
    for (size_t i = 0; i < sizeof CASES / sizeof CASES[0]; i++) {
        check_case("lay-out", i);
        lays_out(CASES[i].count, CASES[i].places, CASES[i].number);
    }
    CHECK(boomspool_lay_out(NULL, 0, 0) == BOOMSPOOL_PLACES);
    CHECK(boomspool_lay_out(NULL, 0, PLACES) == BOOMSPOOL_SHORT);
    check_part("lay-out");
}

/* A sound table after five steps of document 01's session: full, with three clients. */
static void fill(struct lent *t)
{
    static const uint32_t ARRIVALS[] = { 1, 10, 1, 11, 2, 12, 1, 13, 3, 14 };
    CHECK(boomspool_lay_out(t->words, t->count, PLACES) == BOOMSPOOL_OK);
    for (size_t i = 0; i < sizeof ARRIVALS / sizeof ARRIVALS[0]; i += 2) {
        CHECK(boomspool_arrive(t->words, t->count, ARRIVALS[i], ARRIVALS[i + 1]).number == BOOMSPOOL_OK);
    }
    lent_note(t);
}

/* Each call but lay-out refuses these words with that number, its other numbers are 0, and nothing is written. Output and
 * client are such that 4 and 6 would come next. */
static void all_refuse(uint32_t *table, size_t count, uint32_t number)
{
    const struct boomspool_arrived a = boomspool_arrive(table, count, 1, 2);
    CHECK(a.number == number && a.happened == 0 && a.id == 0 && a.ticket == 0);
    const struct boomspool_slid s = boomspool_slide(table, count, 1, 2);
    CHECK(s.number == number && s.passed == 0 && s.id == 0 && s.ticket == 0);
    const struct boomspool_served v = boomspool_serve(table, count);
    CHECK(v.number == number && v.id == 0 && v.ticket == 0);
    const struct boomspool_listed h = boomspool_heaviest(table, count, SIZE_MAX, NULL, 0);
    CHECK(h.number == number && h.pairs == 0);
    const struct boomspool_listed l = boomspool_lightest(table, count, SIZE_MAX, NULL, 0);
    CHECK(l.number == number && l.pairs == 0);
    const struct boomspool_counted c = boomspool_count(table, count, ABSENT);
    CHECK(c.number == number && c.count == 0);
    const struct boomspool_told o = boomspool_oldest(table, count, ABSENT);
    CHECK(o.number == number && o.ticket == 0);
    const struct boomspool_told n = boomspool_newest(table, count, ABSENT);
    CHECK(n.number == number && n.ticket == 0);
}

/* The words of a sound table, cut short and one of them altered. */
struct altered {
    size_t count, at;
    uint32_t value, number;
};

static const struct altered ALTERED[] = {
    { 0, WHOLE, 0, BOOMSPOOL_SHORT },           /* under 16 words */
    { 15, WHOLE, 0, BOOMSPOOL_SHORT },
    { 15, 0, 0, BOOMSPOOL_SHORT },              /* that before the mark */
    { WORDS, 0, 0, BOOMSPOOL_UNSOUND },         /* the mark */
    { WORDS, 1, 0, BOOMSPOOL_UNSOUND },         /* Q */
    { WORDS, 1, LARGEST + 1, BOOMSPOOL_UNSOUND },
    { WORDS, 1, 65540, BOOMSPOOL_UNSOUND },
    { WORDS, 1, UINT32_MAX, BOOMSPOOL_UNSOUND },
    { 16, WHOLE, 0, BOOMSPOOL_SHORT },          /* too short for Q */
    { WORDS - 1, WHOLE, 0, BOOMSPOOL_SHORT },
    { WORDS, 1, PLACES + 1, BOOMSPOOL_SHORT },
    { WORDS - 1, 0, 1, BOOMSPOOL_UNSOUND },     /* mark and Q before that */
    { WORDS - 1, 1, 0, BOOMSPOOL_UNSOUND },
    { WORDS - 1, 10, 1, BOOMSPOOL_SHORT },      /* that before the rest */
    { WORDS, 1, PLACES - 1, BOOMSPOOL_UNSOUND },/* the rest: another Q */
    { WORDS, 2, 3, BOOMSPOOL_UNSOUND },         /* the header */
    { WORDS, 3, 2, BOOMSPOOL_UNSOUND },
    { WORDS, 4, UINT32_MAX, BOOMSPOOL_UNSOUND },
    { WORDS, 5, UINT32_MAX, BOOMSPOOL_UNSOUND },
    { WORDS, 6, UINT32_MAX, BOOMSPOOL_UNSOUND },
    { WORDS, 7, UINT32_MAX, BOOMSPOOL_UNSOUND },
    { WORDS, 8, 0, BOOMSPOOL_UNSOUND },
    { WORDS, 9, UINT32_MAX, BOOMSPOOL_UNSOUND },
    { WORDS, 10, 1, BOOMSPOOL_UNSOUND },        /* the six zeros */
    { WORDS, 15, UINT32_MAX, BOOMSPOOL_UNSOUND },
    { WORDS, 16, PLACES, BOOMSPOOL_UNSOUND },   /* an item's client row */
    { WORDS, 19, 0, BOOMSPOOL_UNSOUND },        /* an item's later link to itself */
    { WORDS, 41, 4000000000u, BOOMSPOOL_UNSOUND }, /* a client's count */
    { WORDS, 40, 2, BOOMSPOOL_UNSOUND },        /* two clients of one id */
    { WORDS, 68, UINT32_MAX, BOOMSPOOL_UNSOUND }, /* the count row of 1 */
};

static void tables(void)
{
    struct lent sound = lent_of(WORDS, NO_PAGE);
    fill(&sound);
    for (size_t i = 0; i < sizeof ALTERED / sizeof ALTERED[0]; i++) {
        const struct altered *a = &ALTERED[i];
        for (int behind = GUARDS; behind <= NO_PAGE; behind++) {
            check_case("altered words", i);
            struct lent t = lent_of(a->count, (enum lent_behind)behind);
            memcpy(t.words, sound.words, t.count * sizeof(uint32_t));
            if (a->at < t.count) {
                t.words[a->at] = a->value;
            }
            lent_note(&t);
            all_refuse(t.words, t.count, a->number);
            CHECK(lent_same(&t, 0) && lent_guarded(&t));
            lent_back(&t);
        }
    }
    all_refuse(NULL, 0, BOOMSPOOL_SHORT);
    lent_back(&sound);
    check_part("tables that are too short or not sound");
}

/* An output of so many words for k clients of a table: that number, and then nothing is written. */
static void lists(const struct lent *t, size_t k, size_t count, uint32_t number, size_t pairs)
{
    for (int behind = GUARDS; behind <= NO_PAGE; behind++) {
        struct lent out = lent_of(count, (enum lent_behind)behind);
        const struct boomspool_listed h = boomspool_heaviest(t->words, t->count, k, out.words, out.count);
        CHECK(h.number == number && h.pairs == pairs && lent_same(&out, 2 * pairs));
        const struct boomspool_listed l = boomspool_lightest(t->words, t->count, k, out.words, out.count);
        CHECK(l.number == number && l.pairs == pairs && lent_same(&out, 2 * pairs));
        CHECK(lent_guarded(&out) && lent_same(t, 0) && lent_guarded(t));
        lent_back(&out);
    }
}

static void outputs(void)
{
    struct lent t = lent_of(WORDS, NO_PAGE);
    CHECK(boomspool_lay_out(t.words, t.count, PLACES) == BOOMSPOOL_OK);
    lent_note(&t);
    check_case("output, nobody", 0);
    lists(&t, SIZE_MAX, 0, BOOMSPOOL_OK, 0);
    CHECK(boomspool_heaviest(t.words, t.count, SIZE_MAX, NULL, 0).number == BOOMSPOOL_OK);
    CHECK(boomspool_arrive(t.words, t.count, 7, 1).happened == BOOMSPOOL_JOINED);
    lent_note(&t);
    check_case("output, one client", 0);
    lists(&t, SIZE_MAX, 2, BOOMSPOOL_OK, 1);
    lists(&t, SIZE_MAX, 1, BOOMSPOOL_OUTPUT, 0);
    lists(&t, SIZE_MAX / 2 + 1, 1, BOOMSPOOL_OUTPUT, 0);
    lists(&t, SIZE_MAX, 0, BOOMSPOOL_OUTPUT, 0);
    lists(&t, 0, 0, BOOMSPOOL_OK, 0);
    CHECK(boomspool_heaviest(t.words, t.count, 1, NULL, 0).number == BOOMSPOOL_OUTPUT);
    CHECK(boomspool_lightest(t.words, t.count, 0, NULL, 0).number == BOOMSPOOL_OK);
    fill(&t);
    check_case("output, three clients", 0);
    lists(&t, 3, 6, BOOMSPOOL_OK, 3);
    lists(&t, 2, 4, BOOMSPOOL_OK, 2);
    lists(&t, 2, 3, BOOMSPOOL_OUTPUT, 0);
    lists(&t, SIZE_MAX, 5, BOOMSPOOL_OUTPUT, 0);
    lists(&t, SIZE_MAX, 9, BOOMSPOOL_OK, 3);
    lent_back(&t);
    check_part("outputs");
}

/* Serve where nobody waits, and the tickets of absent clients. */
static void absent(void)
{
    struct lent t = lent_of(WORDS, NO_PAGE);
    CHECK(boomspool_lay_out(t.words, t.count, PLACES) == BOOMSPOOL_OK);
    lent_note(&t);
    const struct boomspool_served v = boomspool_serve(t.words, t.count);
    CHECK(v.number == BOOMSPOOL_NOBODY && v.id == 0 && v.ticket == 0);
    CHECK(lent_same(&t, 0) && lent_guarded(&t));
    fill(&t);
    static const uint32_t IDS[] = { 0, 4, ABSENT, UINT32_MAX };
    for (size_t i = 0; i < sizeof IDS / sizeof IDS[0]; i++) {
        check_case("absent clients", i);
        const struct boomspool_told o = boomspool_oldest(t.words, t.count, IDS[i]);
        CHECK(o.number == BOOMSPOOL_NO_CLIENT && o.ticket == 0);
        const struct boomspool_told n = boomspool_newest(t.words, t.count, IDS[i]);
        CHECK(n.number == BOOMSPOOL_NO_CLIENT && n.ticket == 0);
        const struct boomspool_counted c = boomspool_count(t.words, t.count, IDS[i]);
        CHECK(c.number == BOOMSPOOL_OK && c.count == 0);
    }
    CHECK(lent_same(&t, 0) && lent_guarded(&t));
    lent_back(&t);
    check_part("nobody waits, no such client");
}

int main(void)
{
    words();
    lay_out();
    tables();
    outputs();
    absent();
    check_end();
    return 0;
}
