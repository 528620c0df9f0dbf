/*
 * A board for these examples: the library's target, and behind it a bus with 4096 words from 20000000, which takes
 * its time.
 */
#ifndef BOARD_H
#define BOARD_H

#include "swd.h"

enum { BOARD_WORDS = 4096 };
#define BOARD_BASE 0x20000000u

struct board {
	struct swd_target target;
	uint32_t words[BOARD_WORDS];
	/* How many transfers took place, and the last of them. */
	unsigned long transfers;
	struct swd_transfer last;
	/* How many cycles the bus takes for a transfer, 0 for none, and how many are left of one. */
	unsigned takes, left;
	/* The cycle with this number, from 1, arrives at the target changed; 0 for none. */
	uint64_t spoils;
};

/* A board that had no line reset yet, with zero words. */
void board_new(struct board *board);

/*
 * One clock; `drive` is the host's bit, or negative where it leaves the line alone. Gives the bit on it; a negative
 * number if the target refuses a call, as one that wasn't made by board_new does.
 */
int board_clock(struct board *board, int drive);

#endif
