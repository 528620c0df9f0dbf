/*
 * A host over two functions of pins, ready to be filled in: `set` puts SWCLK and SWDIO to levels, or lets go
 * of SWDIO, and `get` gives the level of SWDIO. Here they drive a board.
 */
#include <stdio.h>
#include "board.h"
#include "line.h"

static struct board board;

/* What the pins are at. */
static struct {
	int clock, data, drives;
} pins = { 1, 1, 0 };

/* The level that the target sees and shows in this cycle. */
static int level = 1;

/*
 * Fill in: SWDIO is driven at `data` where `drives` isn't 0, and let go of where it is; then SWCLK goes to
 * `clock`. Wait here as long as half a cycle lasts.
 */
static void set(int clock, int data, int drives)
{
	/* The board's cycle is the falling edge: a target changes its level there, and both look before the rising one. */
	if (pins.clock && !clock)
		level = board_clock(&board, drives ? data : RELEASED);
	pins.clock = clock;
	pins.data = data;
	pins.drives = drives;
}

/*
 * Fill in: the level of SWDIO, 0 or 1.
 */
static int get(void)
{
	return level;
}

int line_clock(int drive)
{
	int drives = drive != RELEASED, data = drives ? drive : 1, bit;
	set(0, data, drives);
	bit = get();
	set(1, data, drives);
	return bit;
}

int main(void)
{
	static const uint32_t words[] = { 0xdeadbeef, 0x00000001, 0xffffffff };
	struct swd_run run;
	board_new(&board);
	swd_run_new(&run, 8);
	if (!line_program(&run, BOARD_BASE + 0x20, words, 3))
		return 1;
	printf("3 words written and verified over pins, %lu requests\n", (unsigned long)run.requests);
	return 0;
}
