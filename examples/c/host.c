/*
 * A host over the library's target in the same process, clock by clock: it writes words and verifies them, though
 * the bus behind the target takes its time, and one of the data phases arrives changed.
 */
#include <stdio.h>
#include "board.h"
#include "line.h"

static struct board board;

int line_clock(int drive)
{
	return board_clock(&board, drive);
}

int main(void)
{
	static const uint32_t image[] = { 0x20001000, 0x20000011, 0xe7fee7fe, 0xbf00bf00,
	                                  0x2100481f, 0x60013101, 0xe7fce7fe, 0x40020000 };
	size_t count = sizeof image / sizeof *image, i;
	struct swd_run run;
	board_new(&board);
	board.takes = 20;
	/* One bit of the data of a write. */
	board.spoils = 800;
	swd_run_new(&run, 8);
	if (!line_program(&run, BOARD_BASE, image, count))
		return 1;
	for (i = 0; i < count; i++) {
		if (board.words[i] != image[i])
			return 1;
	}
	printf("%u words written and verified, %lu transfers, %lu requests, %lu cycles\n", (unsigned)count,
	       board.transfers, (unsigned long)run.requests, (unsigned long)board.target.cycles);
	return 0;
}
