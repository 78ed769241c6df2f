/* One call of the archive beside the plain model. */
#include "calls.h"
#include "boomspool.h"
#include "picture.h"
#include "recording.h"
#include "soundness.h"
#include <inttypes.h>
#include <stdio.h>
#include <stdlib.h>
#include <string.h>

#define GUARD_WORD 0xC0FFEE00u

struct place place;
struct sums sums;

void differ(const char *what, uint64_t ours, uint64_t theirs) {
    printf("DIFFERENCE %s: %s: the archive has %" PRIu64 ", expected %" PRIu64 "; mix %s, seed %" PRIu64 ", Q %zu, step %zu\n",
           place.test, what, ours, theirs, place.mix, place.seed, place.q, place.step);
    exit(1);
}

static void same(const char *what, uint64_t ours, uint64_t theirs) {
    if (ours != theirs) {
        differ(what, ours, theirs);
    }
}

uint32_t *lend(struct lent *l, size_t words) {
    l->words = words;
    for (size_t i = 0; i < GUARD; i++) {
        l->room[i] = GUARD_WORD + (uint32_t)i;
        l->room[GUARD + words + i] = GUARD_WORD + (uint32_t)i;
    }
    return l->room + GUARD;
}

/* The words before the call, guards too. */
static uint32_t before[GUARD + MOST_WORDS + MOST_SLACK + GUARD];

static size_t room_words(const struct lent *l) { return GUARD + l->words + GUARD; }

static void nothing_written(const struct lent *l) {
    for (size_t i = 0; i < room_words(l); i++) {
        if (before[i] != l->room[i]) {
            differ("a word is altered", l->room[i], before[i]);
        }
    }
}

/* After a step: only words of the table, and few of them. */
static void few_written(const struct lent *l, size_t most) {
    size_t table = words_of(l->room[GUARD + H_Q]), altered = 0;
    for (size_t i = 0; i < room_words(l); i++) {
        if (before[i] != l->room[i]) {
            altered++;
            if (i < GUARD || i >= GUARD + table) {
                differ("a word beyond the table is altered", l->room[i], before[i]);
            }
        }
    }
    if (altered > most) {
        differ("words altered", altered, most);
    }
    sums.most_altered = altered > sums.most_altered && most <= 96 ? altered : sums.most_altered;
}

static uint32_t happened_number(enum event e) { return e == JOINED ? 1 : e == EVICTED ? 2 : e == TURNED_AWAY ? 3 : 0; }

/* What W-203 is for, by the archive's own counts: who lost a request to an arrival still waits, with no fewer than the client that
   arrived; who was turned away would have had its share with this one. */
static void compare_shares(const uint32_t *t, size_t words, uint32_t id, struct boomspool_arrived r) {
    uint64_t has = boomspool_count(t, words, id).count;
    if (r.happened == BOOMSPOOL_EVICTED) {
        uint64_t left = boomspool_count(t, words, r.id).count;
        if (left < 1 || has > left) {
            differ("an eviction leaves the client that arrived more than the other one, or that one none", has, left);
        }
    }
    if (r.happened == BOOMSPOOL_TURNED_AWAY && (has + 1) * t[H_CLIENTS] < t[H_Q]) {
        differ("turned away under its share", (has + 1) * t[H_CLIENTS], t[H_Q]);
    }
}

static void compare_arrive(uint32_t *t, size_t words, struct answer a, struct request r) {
    struct boomspool_arrived ours = boomspool_arrive(t, words, r.id, r.ticket);
    same("arrive: number", ours.number, a.number);
    same("arrive: what happened", ours.happened, happened_number(a.event));
    same("arrive: id that left", ours.id, a.left.id);
    same("arrive: ticket that left", ours.ticket, a.left.ticket);
    compare_shares(t, words, r.id, ours);
}

static void compare_slide(uint32_t *t, size_t words, struct answer a, struct request r) {
    struct boomspool_slid ours = boomspool_slide(t, words, r.id, r.ticket);
    same("slide: number", ours.number, a.number);
    same("slide: passed", ours.passed, a.event == PASSED);
    same("slide: id that left", ours.id, a.left.id);
    same("slide: ticket that left", ours.ticket, a.left.ticket);
}

static void compare_serve(uint32_t *t, size_t words, struct answer a) {
    struct boomspool_served ours = boomspool_serve(t, words);
    same("serve: number", ours.number, a.number);
    same("serve: id", ours.id, a.left.id);
    same("serve: ticket", ours.ticket, a.left.ticket);
}

static void compare_step(struct lent *l, struct model *m, uint32_t refused, const struct ask *ask) {
    struct answer a = {refused, NOTHING, {0, 0}};
    uint32_t *t = l->room + GUARD;
    if (ask->call == ARRIVE) {
        a = refused ? a : model_arrive(m, ask->request);
        compare_arrive(t, l->words, a, ask->request);
    } else if (ask->call == SLIDE) {
        a = refused ? a : model_slide(m, ask->request);
        compare_slide(t, l->words, a, ask->request);
    } else {
        a = refused ? a : model_serve(m);
        compare_serve(t, l->words, a);
    }
    sums.numbers[a.number]++;
    sums.events[a.event]++;
    if (a.number != 0 || a.event == TURNED_AWAY) {
        nothing_written(l);
    } else {
        few_written(l, 96);
    }
}

static void compare_listing(struct lent *l, const struct model *m, uint32_t refused, const struct ask *ask) {
    static uint32_t ours[MOST_OUT_WORDS + 2 * GUARD], theirs[MOST_OUT_WORDS + 2 * GUARD];
    size_t room = ask->out_words + 2 * GUARD;
    memset(ours, 0xA5, room * sizeof ours[0]);
    memset(theirs, 0xA5, room * sizeof theirs[0]);
    bool heavy = ask->call == HEAVIEST;
    size_t pairs = 0;
    uint32_t number = refused ? refused : (heavy ? model_heaviest : model_lightest)(m, ask->k, theirs + GUARD, ask->out_words, &pairs);
    uint32_t *out = ask->out_words ? ours + GUARD : NULL;
    struct boomspool_listed r = (heavy ? boomspool_heaviest : boomspool_lightest)(l->room + GUARD, l->words, ask->k, out, ask->out_words);
    same("listing: number", r.number, number);
    same("listing: pairs", r.pairs, pairs);
    for (size_t i = 0; i < room; i++) {
        same("listing: output word", ours[i], theirs[i]);
    }
    sums.numbers[number]++;
}

static void compare_count(struct lent *l, const struct model *m, uint32_t refused, uint32_t id) {
    struct boomspool_counted r = boomspool_count(l->room + GUARD, l->words, id);
    same("count: number", r.number, refused);
    same("count", r.count, refused ? 0 : model_count(m, id));
    sums.numbers[refused]++;
}

static void compare_ticket(struct lent *l, const struct model *m, uint32_t refused, const struct ask *ask) {
    uint32_t ticket = 0, number = refused;
    bool oldest = ask->call == OLDEST;
    if (!refused && !(oldest ? model_oldest : model_newest)(m, ask->request.id, &ticket)) {
        number = 6;
    }
    struct boomspool_told r = (oldest ? boomspool_oldest : boomspool_newest)(l->room + GUARD, l->words, ask->request.id);
    same("oldest or newest: number", r.number, number);
    same("oldest or newest: ticket", r.ticket, ticket);
    sums.numbers[number]++;
}

static void compare_report(struct boomspool_ran r, struct tally a) {
    same("run or replay: stop", r.stop, a.stop);
    same("run or replay: done", r.done, a.done);
    same("run or replay: joined", r.joined, a.joined);
    same("run or replay: evicted", r.evicted, a.evicted);
    same("run or replay: passed", r.passed, a.passed);
    same("run or replay: served", r.served, a.served);
    same("run or replay: turned", r.turned, a.turned);
    same("run or replay: idle", r.idle, a.idle);
}

static void compare_day(const struct boomspool_day *ours, const struct day *d) {
    same("day: joined", ours->joined, d->joined);
    same("day: evicted", ours->evicted, d->evicted);
    same("day: passed", ours->passed, d->passed);
    same("day: served", ours->served, d->served);
    same("day: turned", ours->turned, d->turned);
    same("day: idle", ours->idle, d->idle);
}

/* With and without a day record. */
static void compare_run(struct lent *l, struct model *m, uint32_t refused, const struct ask *ask) {
    struct tally a = {0};
    uint32_t *t = l->room + GUARD;
    a.stop = refused;
    a = refused ? a : model_run(m, ask->commands, ask->bytes, ask->budget);
    if (ask->call == RUN) {
        compare_report(boomspool_run(t, l->words, ask->commands, ask->bytes, ask->budget), a);
    } else {
        struct day d = ask->day;
        struct boomspool_day ours = {d.joined, d.evicted, d.passed, d.served, d.turned, d.idle};
        model_bring_up(&d, &a);
        compare_report(boomspool_run_day(t, l->words, ask->commands, ask->bytes, ask->budget, &ours), a);
        compare_day(&ours, &d);
    }
    sums.stops[a.stop]++;
    sums.commands_in_runs += a.done;
    if (a.joined + a.served == 0) {
        nothing_written(l);
    } else {
        few_written(l, MOST_WORDS);
    }
}

/* The words that runs of the blocks leave, one after the other, which is how a replay has to leave them. */
static void same_as_runs(const struct lent *l, const uint8_t *recording, uint64_t blocks) {
    static uint32_t by_runs[GUARD + MOST_WORDS + MOST_SLACK + GUARD];
    memcpy(by_runs, before, room_words(l) * sizeof by_runs[0]);
    for (uint64_t b = 0; b < blocks; b++) {
        const uint8_t *block = recording + BLOCK_BYTES * b;
        boomspool_run(by_runs + GUARD, l->words, block, COMMAND_BYTES * recording_used(block), UINT64_MAX);
    }
    for (size_t i = 0; i < room_words(l); i++) {
        same("replay: word", l->room[i], by_runs[i]);
    }
}

static void compare_replay(struct lent *l, struct model *m, uint32_t refused, const struct ask *ask) {
    struct replayed a = {0};
    a.sums.stop = refused;
    a = refused ? a : recording_replay(m, ask->commands, ask->bytes, ask->first);
    struct boomspool_replayed r = boomspool_replay(l->room + GUARD, l->words, ask->commands, ask->bytes, ask->first);
    same("replay: blocks", r.blocks, a.blocks);
    compare_report((struct boomspool_ran){r.stop, r.done, r.joined, r.evicted, r.passed, r.served, r.turned, r.idle}, a.sums);
    sums.ends[a.sums.stop]++;
    sums.blocks += a.blocks;
    sums.commands_in_replays += a.sums.done;
    if (a.sums.joined + a.sums.served == 0) {
        nothing_written(l);
    } else {
        few_written(l, MOST_WORDS);
        same_as_runs(l, ask->commands, a.blocks);
    }
}

void compare_call(struct lent *l, struct model *m, uint32_t refused, const struct ask *ask) {
    memcpy(before, l->room, room_words(l) * sizeof before[0]);
    sums.calls[ask->call]++;
    switch (ask->call) {
    case ARRIVE:
    case SLIDE:
    case SERVE:
        compare_step(l, m, refused, ask);
        return;
    case HEAVIEST:
    case LIGHTEST:
        compare_listing(l, m, refused, ask);
        break;
    case COUNT:
        compare_count(l, m, refused, ask->request.id);
        break;
    case OLDEST:
    case NEWEST:
        compare_ticket(l, m, refused, ask);
        break;
    case RUN:
    case RUN_DAY:
        compare_run(l, m, refused, ask);
        return;
    default:
        compare_replay(l, m, refused, ask);
        return;
    }
    nothing_written(l);
}

void compare_table(const struct lent *l, const struct model *m) {
    static struct picture p;
    static struct model shown;
    const uint32_t *t = l->room + GUARD;
    const char *broken = broken_clause(t, m->places);
    if (broken) {
        differ(broken, 0, 1);
    }
    picture_read(&p, t, m->places);
    picture_model(&p, &shown);
    if (!model_same(&shown, m) || !model_consistent(m)) {
        differ("the table shows another history", 0, 1);
    }
}
