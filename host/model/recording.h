/* Recordings, written from document 02 alone (W-202): what a block holds, which test of it fails first, and what a replay does. */
#ifndef RECORDING_H
#define RECORDING_H
#include "model.h"

enum { BLOCK_BYTES = 512, BLOCK_COMMANDS = 56, MOST_BLOCKS = 65536 };

/* Where a block has its numbers. */
enum { USED_AT = BLOCK_COMMANDS * COMMAND_BYTES, NUMBER_AT = USED_AT + 2, CHECK_AT = NUMBER_AT + 2 };

/* A command of the recorder, before anybody looked at it. */
struct wish { uint32_t kind, id, ticket; };

/* The nine bytes of a command. */
void recording_command(uint8_t *at, struct wish w);
/* The block of that number that has so many commands, from their bytes. */
void recording_block(uint8_t *block, const uint8_t *commands, size_t used, size_t number);
/* Writes the check of what the block holds, be it right or wrong otherwise. */
void recording_seal(uint8_t *block);
/* One command more, where there are so many already: 0, 24 or 18. */
uint32_t recording_add(uint8_t *block, uint64_t recorded, struct wish w);

/* How many commands a block says it has. */
size_t recording_used(const uint8_t *block);
/* The first test that fails of a block that should have that number, where so many bytes are left; 0 for none. */
uint32_t recording_test(const uint8_t *block, size_t left, uint64_t number);

/* What a replay answers: the stop is the tally's. */
struct replayed { uint64_t blocks; struct tally sums; };
struct replayed recording_replay(struct model *m, const uint8_t *bytes, size_t length, uint64_t first);

#endif
