/* Commands and recordings at random, and spoilt: as a wrong server would record, and as disks, crashes and other writers leave blocks. */
#ifndef SPOIL_H
#define SPOIL_H
#include "random.h"
#include "recording.h"

enum { MOST_PALETTE = 64, MOST_WRITTEN = 4, SPOILS = 15 };

/* Whose requests they are. */
struct palette { size_t ids; uint32_t id[MOST_PALETTE]; };
void random_palette(struct palette *p, size_t q, struct dice *d);

/* A command as a server would record it, and one that most often is none. */
struct wish random_command(const struct palette *p, struct dice *d);
struct wish spoil_command(struct wish w, struct dice *d);

/* Bytes to replay, and the number that their first block should have. */
struct recording { uint8_t bytes[BLOCK_BYTES * (MOST_WRITTEN + 1)]; size_t length; uint64_t first; };

/* A whole recording or a later piece of one: each block but the last is full, or each has any number of commands. */
void random_recording(struct recording *r, const struct palette *p, struct dice *d);
/* Spoils it in one of so many ways; the way's name. */
const char *spoil_recording(struct recording *r, size_t spoil, const struct palette *p, struct dice *d);

#endif
