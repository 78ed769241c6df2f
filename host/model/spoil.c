/* Commands and recordings at random, and spoilt. */
#include "spoil.h"
#include <string.h>

void random_palette(struct palette *p, size_t q, struct dice *d) {
    p->ids = 1 + below(d, 2 * q < MOST_PALETTE ? 2 * q : MOST_PALETTE);
    for (size_t i = 0; i < p->ids; i++) {
        p->id[i] = below(d, 3) ? (uint32_t)below(d, 8) : (uint32_t)roll(d) | (below(d, 3) ? 0 : UINT32_MAX);
    }
}

struct wish random_command(const struct palette *p, struct dice *d) {
    struct wish w = {1 + (uint32_t)below(d, 16) / 9, 0, 0};
    if (below(d, 4) == 0) {
        w.kind = 3;
        return w;
    }
    w.id = p->id[below(d, p->ids)];
    w.ticket = below(d, 4) ? (uint32_t)below(d, 300) : (uint32_t)roll(d);
    return w;
}

struct wish spoil_command(struct wish w, struct dice *d) {
    static const uint32_t kinds[] = {0, 4, 5, 255, 256, 257, 258, 259, 65537, 0x01000002, 0x80000003, UINT32_MAX};
    switch (below(d, 4)) {
    case 0:
        w.kind = kinds[below(d, sizeof kinds / sizeof kinds[0])];
        break;
    case 1:
        w.kind = (uint32_t)roll(d);
        break;
    case 2:
        w = (struct wish){3, 1u << below(d, 32), 0};
        break;
    default:
        w = (struct wish){3, 0, below(d, 2) ? 1u << below(d, 32) : (uint32_t)roll(d)};
    }
    return w;
}

void random_recording(struct recording *r, const struct palette *p, struct dice *d) {
    static const uint64_t firsts[] = {1, 255, 256, 65532, 65533, 65534, 65535};
    size_t n = 1 + below(d, MOST_WRITTEN);
    bool full = below(d, 2);
    r->first = below(d, 2) ? 0 : below(d, 2) ? firsts[below(d, 7)] : below(d, MOST_BLOCKS);
    r->length = BLOCK_BYTES * n;
    for (size_t b = 0; b < n; b++) {
        uint8_t commands[USED_AT];
        size_t used = full && b + 1 < n ? BLOCK_COMMANDS : 1 + below(d, BLOCK_COMMANDS);
        for (size_t i = 0; i < used; i++) {
            recording_command(commands + COMMAND_BYTES * i, random_command(p, d));
        }
        recording_block(r->bytes + BLOCK_BYTES * b, commands, used, (size_t)r->first + b);
    }
}

/* The recording that is being spoilt, and what it is spoilt with. */
static struct recording *r;
static const struct palette *palette;
static struct dice *dice;

static size_t blocks(void) { return r->length / BLOCK_BYTES; }
static uint8_t *any_block(void) { return r->bytes + BLOCK_BYTES * below(dice, blocks()); }

static void alter_bytes(void) {
    for (size_t times = 1 + below(dice, 4) / 3; times > 0; times--) {
        r->bytes[below(dice, r->length)] += (uint8_t)(1 + below(dice, 255));
    }
}

static void exchange_bytes(void) {
    uint8_t *block = any_block();
    size_t a = below(dice, BLOCK_BYTES), b = below(dice, 2) ? below(dice, BLOCK_BYTES) : a ^ 1;
    uint8_t byte = block[a];
    block[a] = block[b];
    block[b] = byte;
}

static void cut(void) { r->length = below(dice, r->length); }

static void lose_bytes(void) {
    size_t n = 1 + below(dice, 20), at = below(dice, r->length - n);
    memmove(r->bytes + at, r->bytes + at + n, r->length - at - n);
    r->length -= n;
}

static void exchange_blocks(void) {
    uint8_t block[BLOCK_BYTES], *a = any_block(), *b = any_block();
    memcpy(block, a, sizeof block);
    memmove(a, b, sizeof block);
    memcpy(b, block, sizeof block);
}

/* A block once more, behind itself or at the end. */
static void double_block(void) {
    uint8_t *a = any_block(), *to = below(dice, 2) ? a + BLOCK_BYTES : r->bytes + r->length;
    uint8_t block[BLOCK_BYTES];
    memcpy(block, a, sizeof block);
    memmove(to + BLOCK_BYTES, to, (size_t)(r->bytes + r->length - to));
    memcpy(to, block, sizeof block);
    r->length += BLOCK_BYTES;
}

static void drop_block(void) {
    uint8_t *a = any_block();
    memmove(a, a + BLOCK_BYTES, (size_t)(r->bytes + r->length - a - BLOCK_BYTES));
    r->length -= BLOCK_BYTES;
}

static void other_number(uint8_t *block) { block[NUMBER_AT + below(dice, 2)] += (uint8_t)(1 + below(dice, 255)); }

static void other_use(uint8_t *block) {
    static const uint16_t uses[] = {0, 57, 58, 255, 256, 257, 312, 65535};
    size_t used = recording_used(block), what = below(dice, 4);
    size_t now = what == 0 ? uses[below(dice, 8)] : what == 1 ? used + 1 : what == 2 ? used - 1 : below(dice, 65536);
    block[USED_AT] = (uint8_t)(now % 256);
    block[USED_AT + 1] = (uint8_t)(now / 256);
}

static void unused_byte(uint8_t *block) {
    size_t from = COMMAND_BYTES * (recording_used(block) % (BLOCK_COMMANDS + 1));
    if (from < USED_AT) {
        size_t at = below(dice, 3) ? from + below(dice, USED_AT - from) : below(dice, 2) ? from : USED_AT - 1;
        block[at] = (uint8_t)(1 + below(dice, 255));
    }
}

static void other_command(uint8_t *block) {
    size_t used = recording_used(block) % (BLOCK_COMMANDS + 1), what = below(dice, 3);
    if (used > 0) {
        size_t at = what == 0 ? 0 : what == 1 ? used - 1 : below(dice, used);
        recording_command(block + COMMAND_BYTES * at, spoil_command(random_command(palette, dice), dice));
    }
}

/* The check made right again. */
static void sealed(void (*damage)(uint8_t *block)) {
    uint8_t *block = any_block();
    damage(block);
    recording_seal(block);
}

static void sealed_number(void) { sealed(other_number); }
static void sealed_use(void) { sealed(other_use); }
static void sealed_unused(void) { sealed(unused_byte); }
static void sealed_command(void) { sealed(other_command); }

/* Several of these in one block, the check right or not. */
static void several(void) {
    static void (*const damages[])(uint8_t *) = {other_command, unused_byte, other_use, other_number};
    uint8_t *block = any_block();
    for (size_t i = 0; i < 4; i++) {
        if (below(dice, 2)) {
            damages[i](block);
        }
    }
    if (below(dice, 4)) {
        recording_seal(block);
    }
}

static void other_first(void) {
    const uint64_t firsts[] = {0, r->first + 1, r->first + 256, r->first + 65536, r->first + ((uint64_t)1 << 32), 65536, UINT64_MAX, roll(dice)};
    r->first = firsts[below(dice, 8)];
}

/* The store of a last block was cut short: over the block as it was a command earlier, or over zeros. */
static void tear(void) {
    uint8_t *last = r->bytes + r->length - BLOCK_BYTES, old[BLOCK_BYTES] = {0};
    size_t used = recording_used(last), kept = below(dice, 2) ? below(dice, BLOCK_BYTES + 1) : CHECK_AT + below(dice, 5);
    if (used > 1 && below(dice, 2)) {
        recording_block(old, last, used - 1, (size_t)(r->first + blocks() - 1) % MOST_BLOCKS);
    }
    memcpy(last + kept, old + kept, BLOCK_BYTES - kept);
}

static void zero_block(void) { memset(any_block(), 0, BLOCK_BYTES); }

static const struct { const char *name; void (*spoil)(void); } spoils[SPOILS] = {
    {"bytes altered", alter_bytes},           {"bytes exchanged", exchange_bytes}, {"cut", cut},
    {"bytes lost", lose_bytes},               {"blocks exchanged", exchange_blocks}, {"block doubled", double_block},
    {"block dropped", drop_block},            {"number, sealed", sealed_number},   {"use, sealed", sealed_use},
    {"unused byte, sealed", sealed_unused},   {"command, sealed", sealed_command}, {"several", several},
    {"first", other_first},                   {"torn", tear},                      {"zeros", zero_block},
};

const char *spoil_recording(struct recording *recording, size_t spoil, const struct palette *p, struct dice *d) {
    r = recording;
    palette = p;
    dice = d;
    spoils[spoil].spoil();
    return spoils[spoil].name;
}
