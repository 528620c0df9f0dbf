/*
 * A monitor beside a host and the library's target in one process: does the target keep the standard? On a line without
 * damage it does. If one bit of a write arrives changed, it answers FAULT, which a clean line doesn't explain.
 */
#include <stdio.h>
#include "board.h"
#include "line.h"
#include "monitor.h"

static struct board board;
static struct monitor monitor;

int line_clock(int drive)
{
	int bit = board_clock(&board, drive);
	/* The monitor is at the host's end, where the bit isn't changed yet. */
	if (bit >= 0)
		monitor_bit(&monitor, drive < 0 ? bit : drive);
	return bit;
}

/* Writes words and reads them back, and gives whether the verdict is of this kind, with so many faults. */
static bool checked(uint8_t clean, uint64_t spoils, uint8_t kind, uint64_t faults)
{
	static const uint32_t image[] = { 0x20001000, 0x20000011, 0xe7fee7fe, 0xbf00bf00 };
	struct swd_verdict verdict;
	struct swd_run run;
	board_new(&board);
	board.spoils = spoils;
	monitor_new(&monitor, SWD_MADE, clean);
	swd_run_new(&run, 8);
	if (!line_program(&run, BOARD_BASE, image, sizeof image / sizeof *image))
		return false;
	verdict = monitor_end(&monitor);
	monitor_print(&verdict);
	/* Each bit belongs to an item. */
	return verdict.kind == kind && verdict.faults == faults && monitor.place == board.target.cycles;
}

/* Whether there is no verdict, nor that of the monitor before, where the checker refuses what it is made with. */
static bool has_none(void)
{
	struct swd_verdict verdict;
	monitor_new(&monitor, 0, 1);
	monitor_bit(&monitor, 1);
	verdict = monitor_end(&monitor);
	monitor_print(&verdict);
	return verdict.kind == 0;
}

/* Whether the check hasn't begun, where a target in any state showed nothing but a zero: "fits" says nothing then. */
static bool has_not_begun(void)
{
	struct swd_verdict verdict;
	monitor_new(&monitor, SWD_ANY, 1);
	monitor_bit(&monitor, 0);
	verdict = monitor_end(&monitor);
	monitor_print(&verdict);
	return verdict.kind == SWD_FITS && !verdict.has_began;
}

int main(void)
{
	bool good = checked(1, 0, SWD_FITS, 0);
	/* One bit of the data of a write. */
	good = checked(0, 750, SWD_FITS, 1) && good;
	good = checked(1, 750, SWD_BREAKS, 0) && good;
	good = has_none() && good;
	good = has_not_begun() && good;
	return good ? 0 : 1;
}
