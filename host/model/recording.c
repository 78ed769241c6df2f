/* Recordings: each block is written as a whole from its commands, and read byte by byte. */
#include "recording.h"
#include <string.h>

static void put(uint8_t *at, uint64_t number, size_t bytes) {
    for (size_t i = 0; i < bytes; i++) {
        at[i] = (uint8_t)(number % 256);
        number /= 256;
    }
}

static uint64_t get(const uint8_t *at, size_t bytes) {
    uint64_t number = 0;
    while (bytes-- > 0) {
        number = 256 * number + at[bytes];
    }
    return number;
}

static uint64_t check_of(const uint8_t *block) {
    uint64_t sum = 0;
    for (size_t place = 0; place < CHECK_AT; place++) {
        sum += (place + 1) * block[place];
    }
    return sum;
}

void recording_command(uint8_t *at, struct wish w) {
    at[0] = (uint8_t)w.kind;
    put(at + 1, w.id, 4);
    put(at + 5, w.ticket, 4);
}

void recording_seal(uint8_t *block) { put(block + CHECK_AT, check_of(block), 4); }

void recording_block(uint8_t *block, const uint8_t *commands, size_t used, size_t number) {
    memset(block, 0, BLOCK_BYTES);
    memcpy(block, commands, COMMAND_BYTES * used);
    put(block + USED_AT, used, 2);
    put(block + NUMBER_AT, number, 2);
    recording_seal(block);
}

uint32_t recording_add(uint8_t *block, uint64_t recorded, struct wish w) {
    uint8_t commands[USED_AT];
    if (w.kind > 255) {
        return 24;
    }
    size_t used = (size_t)(recorded % BLOCK_COMMANDS);
    memcpy(commands, block, COMMAND_BYTES * used);
    recording_command(commands + COMMAND_BYTES * used, w);
    if (!model_command(commands + COMMAND_BYTES * used)) {
        return 24;
    }
    if (recorded / BLOCK_COMMANDS >= MOST_BLOCKS) {
        return 18;
    }
    recording_block(block, commands, used + 1, (size_t)(recorded / BLOCK_COMMANDS));
    return 0;
}

size_t recording_used(const uint8_t *block) { return (size_t)get(block + USED_AT, 2); }

static bool unused_are_zero(const uint8_t *block) {
    for (size_t i = COMMAND_BYTES * recording_used(block); i < USED_AT; i++) {
        if (block[i] != 0) {
            return false;
        }
    }
    return true;
}

static bool all_commands(const uint8_t *block) {
    for (size_t i = 0; i < recording_used(block); i++) {
        if (!model_command(block + COMMAND_BYTES * i)) {
            return false;
        }
    }
    return true;
}

uint32_t recording_test(const uint8_t *block, size_t left, uint64_t number) {
    if (left < BLOCK_BYTES) {
        return 20;
    }
    if (get(block + CHECK_AT, 4) != check_of(block)) {
        return 21;
    }
    if (get(block + NUMBER_AT, 2) != number) {
        return 22;
    }
    if (recording_used(block) < 1 || recording_used(block) > BLOCK_COMMANDS || !unused_are_zero(block)) {
        return 23;
    }
    return all_commands(block) ? 0 : 24;
}

struct replayed recording_replay(struct model *m, const uint8_t *bytes, size_t length, uint64_t first) {
    struct replayed r = {0};
    for (; length > 0; bytes += BLOCK_BYTES, length -= BLOCK_BYTES) {
        r.sums.stop = recording_test(bytes, length, first + r.blocks);
        if (r.sums.stop != 0) {
            return r;
        }
        struct tally more = model_run(m, bytes, COMMAND_BYTES * recording_used(bytes), UINT64_MAX);
        r.blocks++;
        r.sums.done += more.done;
        r.sums.joined += more.joined;
        r.sums.evicted += more.evicted;
        r.sums.passed += more.passed;
        r.sums.served += more.served;
        r.sums.turned += more.turned;
        r.sums.idle += more.idle;
    }
    return r;
}
