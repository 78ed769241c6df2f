/* Runs from C: document 01's session as bytes, every stop, the refusals, and the day record brought up to date. */
#include <stdio.h>
#include <string.h>

#include "boomspool.h"
#include "check.h"

enum { PLACES = 4, WORDS = 80, COMMAND = 9, COMMANDS = 9, BYTES = COMMAND * COMMANDS, BUDGET = 1000 };
enum { DAY_WORDS = sizeof(struct boomspool_day) / sizeof(uint32_t) };

/* Arrive (1,10), (1,11), (2,12), (1,13), (3,14), (1,15), (2,16), slide (3,17), serve. */
static const uint32_t SESSION[COMMANDS][3] = {
    { 1, 1, 10 }, { 1, 1, 11 }, { 1, 2, 12 }, { 1, 1, 13 }, { 1, 3, 14 },
    { 1, 1, 15 }, { 1, 2, 16 }, { 2, 3, 17 }, { 3, 0, 0 },
};

/* What a run of the first n of them reports. */
static const struct boomspool_ran AFTER[COMMANDS + 1] = {
    { 0, 0, 0, 0, 0, 0, 0, 0 }, { 0, 1, 1, 0, 0, 0, 0, 0 }, { 0, 2, 2, 0, 0, 0, 0, 0 }, { 0, 3, 3, 0, 0, 0, 0, 0 },
    { 0, 4, 4, 0, 0, 0, 0, 0 }, { 0, 5, 5, 1, 0, 0, 0, 0 }, { 0, 6, 5, 1, 0, 0, 1, 0 }, { 0, 7, 5, 1, 0, 0, 2, 0 },
    { 0, 8, 6, 1, 1, 0, 2, 0 }, { 0, 9, 6, 1, 1, 1, 2, 0 },
};

static void put(uint8_t *at, uint32_t kind, uint32_t id, uint32_t ticket)
{
    at[0] = (uint8_t)kind;
    for (unsigned j = 0; j < 4; j++) {
        at[1 + j] = (uint8_t)(id >> 8 * j);
        at[5 + j] = (uint8_t)(ticket >> 8 * j);
    }
}

static void call(struct lent *t, const uint32_t *command)
{
    if (command[0] == 1) {
        CHECK(boomspool_arrive(t->words, t->count, command[1], command[2]).number == BOOMSPOOL_OK);
    } else if (command[0] == 2) {
        CHECK(boomspool_slide(t->words, t->count, command[1], command[2]).number == BOOMSPOOL_OK);
    } else {
        CHECK(boomspool_serve(t->words, t->count).number == BOOMSPOOL_OK);
    }
}

static int same_report(const struct boomspool_ran *r, const struct boomspool_ran *e, uint32_t stop)
{
    return r->stop == stop && r->done == e->done && r->joined == e->joined && r->evicted == e->evicted && r->passed == e->passed
        && r->served == e->served && r->turned == e->turned && r->idle == e->idle;
}

static int same_day(const struct boomspool_day *d, const struct boomspool_ran *r)
{
    return d->joined == r->joined && d->evicted == r->evicted && d->passed == r->passed && d->served == r->served
        && d->turned == r->turned && d->idle == r->idle;
}

/* The session's bytes in a buffer that ends where a page begins that nothing may touch. */
static struct lent_bytes bytes_of(size_t count)
{
    uint8_t session[BYTES];
    for (size_t i = 0; i < COMMANDS; i++) {
        put(session + COMMAND * i, SESSION[i][0], SESSION[i][1], SESSION[i][2]);
    }
    return lent_bytes_of(session, count, NO_PAGE, 0);
}

/* Runs so many bytes of the session on a fresh table, both ways: the report, the table that the calls leave, the day. */
static void runs(size_t count, uint64_t budget, uint32_t stop, size_t done)
{
    struct lent_bytes b = bytes_of(count);
    struct lent t = lent_of(WORDS, NO_PAGE), u = lent_of(WORDS + 9, GUARDS), by_calls = lent_of(WORDS, GUARDS);
    struct lent d = lent_of(DAY_WORDS, NO_PAGE);
    struct boomspool_day *day = (struct boomspool_day *)(void *)d.words;
    memset(day, 0, sizeof *day);
    CHECK(boomspool_lay_out(t.words, t.count, PLACES) == BOOMSPOOL_OK);
    CHECK(boomspool_lay_out(u.words, u.count, PLACES) == BOOMSPOOL_OK);
    CHECK(boomspool_lay_out(by_calls.words, by_calls.count, PLACES) == BOOMSPOOL_OK);
    for (size_t i = 0; i < done; i++) {
        call(&by_calls, SESSION[i]);
    }
    struct boomspool_ran r = boomspool_run(t.words, t.count, b.at, count, budget);
    CHECK(same_report(&r, &AFTER[done], stop));
    r = boomspool_run_day(u.words, u.count, b.at, count, budget, day);
    CHECK(same_report(&r, &AFTER[done], stop) && same_day(day, &AFTER[done]));
    CHECK(memcmp(t.words, by_calls.words, WORDS * sizeof(uint32_t)) == 0);
    CHECK(memcmp(u.words, by_calls.words, WORDS * sizeof(uint32_t)) == 0);
    CHECK(lent_same(&b.lent, 0) && lent_same(&u, WORDS));
    CHECK(lent_guarded(&b.lent) && lent_guarded(&t) && lent_guarded(&u) && lent_guarded(&by_calls) && lent_guarded(&d));
    lent_back(&b.lent);
    lent_back(&t);
    lent_back(&u);
    lent_back(&by_calls);
    lent_back(&d);
}

static void session(void)
{
    for (size_t n = 0; n <= COMMANDS; n++) {
        check_case("the session's commands", n);
        runs(n * COMMAND, BUDGET, BOOMSPOOL_ALL_DONE, n);
        runs(n * COMMAND, UINT64_MAX, BOOMSPOOL_ALL_DONE, n);
        runs(n * COMMAND, n, BOOMSPOOL_ALL_DONE, n);
        runs(BYTES, n, n == COMMANDS ? BOOMSPOOL_ALL_DONE : BOOMSPOOL_BUDGET_SPENT, n);
        for (size_t cut = 1; cut < COMMAND && n < COMMANDS; cut++) {
            runs(n * COMMAND + cut, BUDGET, BOOMSPOOL_CUT_SHORT, n);
            runs(n * COMMAND + cut, n, BOOMSPOOL_BUDGET_SPENT, n);
        }
    }
    check_part("the session as bytes");
}

/* One command on a fresh table: where it stops, and how many were idle. */
static void one(uint32_t kind, uint32_t id, uint32_t ticket, uint32_t stop, uint64_t idle)
{
    uint8_t bytes[COMMAND];
    struct lent t = lent_of(WORDS, NO_PAGE);
    put(bytes, kind, id, ticket);
    CHECK(boomspool_lay_out(t.words, t.count, PLACES) == BOOMSPOOL_OK);
    lent_note(&t);
    const struct boomspool_ran r = boomspool_run(t.words, t.count, bytes, COMMAND, BUDGET);
    CHECK(r.stop == stop && r.idle == idle && r.done == (stop == BOOMSPOOL_ALL_DONE ? 1 : 0));
    CHECK(r.evicted == 0 && r.passed == 0 && r.served == 0 && r.turned == 0 && r.joined == r.done - r.idle);
    CHECK(r.joined != 0 || lent_same(&t, 0));
    CHECK(boomspool_run(t.words, t.count, bytes, COMMAND, 0).stop == BOOMSPOOL_BUDGET_SPENT);
    lent_back(&t);
}

static void commands(void)
{
    check_case("one command", 0);
    one(1, 0, 0, BOOMSPOOL_ALL_DONE, 0);
    one(2, UINT32_MAX, UINT32_MAX, BOOMSPOOL_ALL_DONE, 0);
    one(3, 0, 0, BOOMSPOOL_ALL_DONE, 1);
    one(3, 0, 5, BOOMSPOOL_BAD_COMMAND, 0);
    one(3, 1, 0, BOOMSPOOL_BAD_COMMAND, 0);
    one(3, 0, 0x01000000, BOOMSPOOL_BAD_COMMAND, 0);
    one(0, 0, 0, BOOMSPOOL_BAD_COMMAND, 0);
    one(4, 1, 1, BOOMSPOOL_BAD_COMMAND, 0);
    one(255, 1, 1, BOOMSPOOL_BAD_COMMAND, 0);
    check_part("single commands");
}

/* A run that is refused leaves table and day record, and reports nothing else. */
static void refused(size_t count, size_t at, uint32_t value, uint32_t stop)
{
    struct lent_bytes b = bytes_of(BYTES);
    struct lent t = lent_of(count, NO_PAGE), d = lent_of(DAY_WORDS, GUARDS);
    struct boomspool_day *day = (struct boomspool_day *)(void *)d.words;
    boomspool_lay_out(t.words, t.count, PLACES);
    if (at < count) {
        t.words[at] = value;
    }
    lent_note(&t);
    struct boomspool_ran r = boomspool_run(t.words, t.count, b.at, BYTES, BUDGET);
    CHECK(same_report(&r, &AFTER[0], stop) && lent_same(&t, 0));
    r = boomspool_run_day(t.words, t.count, b.at, BYTES, BUDGET, day);
    CHECK(same_report(&r, &AFTER[0], stop) && lent_same(&t, 0) && lent_same(&d, 0));
    r = boomspool_run_day(t.words, t.count, NULL, 0, 0, day);
    CHECK(same_report(&r, &AFTER[0], stop) && lent_same(&t, 0) && lent_same(&d, 0));
    CHECK(lent_guarded(&t) && lent_guarded(&d));
    lent_back(&b.lent);
    lent_back(&t);
    lent_back(&d);
}

static void refusals(void)
{
    check_case("refused runs", 0);
    refused(0, 0, 0, BOOMSPOOL_SHORT);
    refused(15, 0, 0, BOOMSPOOL_SHORT);
    refused(WORDS, 0, 0, BOOMSPOOL_UNSOUND);
    refused(WORDS, 1, 0, BOOMSPOOL_UNSOUND);
    refused(WORDS, 1, PLACES + 1, BOOMSPOOL_SHORT);
    refused(WORDS, 10, 1, BOOMSPOOL_UNSOUND);
    refused(WORDS, 2, 1, BOOMSPOOL_UNSOUND);
    struct boomspool_day day = { 1, 2, 3, 4, 5, UINT64_MAX };
    const struct boomspool_ran r = boomspool_run_day(NULL, 0, NULL, 0, BUDGET, &day);
    CHECK(same_report(&r, &AFTER[0], BOOMSPOOL_SHORT));
    CHECK(day.joined == 1 && day.evicted == 2 && day.passed == 3 && day.served == 4 && day.turned == 5 && day.idle == UINT64_MAX);
    check_part("refused runs");
}

/* Each total stays at its largest value once there: joined comes just to it, turned would pass it, passed is there. */
static void day_record(void)
{
    struct lent_bytes b = bytes_of(BYTES);
    struct lent t = lent_of(WORDS, NO_PAGE);
    struct boomspool_day day = { UINT64_MAX - 6, 40, UINT64_MAX, UINT64_MAX - 3, UINT64_MAX - 1, UINT64_MAX };
    check_case("the day record", 0);
    CHECK(boomspool_lay_out(t.words, t.count, PLACES) == BOOMSPOOL_OK);
    CHECK(boomspool_run_day(t.words, t.count, b.at, BYTES, BUDGET, &day).stop == BOOMSPOOL_ALL_DONE);
    CHECK(day.joined == UINT64_MAX && day.evicted == 41 && day.passed == UINT64_MAX);
    CHECK(day.served == UINT64_MAX - 2 && day.turned == UINT64_MAX && day.idle == UINT64_MAX);
    CHECK(boomspool_lay_out(t.words, t.count, PLACES) == BOOMSPOOL_OK);
    CHECK(boomspool_run_day(t.words, t.count, b.at, BYTES, 8, &day).stop == BOOMSPOOL_BUDGET_SPENT);
    CHECK(day.joined == UINT64_MAX && day.evicted == 42 && day.passed == UINT64_MAX);
    CHECK(day.served == UINT64_MAX - 2 && day.turned == UINT64_MAX && day.idle == UINT64_MAX);
    lent_back(&b.lent);
    lent_back(&t);
    check_part("the day record");
}

int main(void)
{
    session();
    commands();
    refusals();
    day_record();
    check_end();
    return 0;
}
