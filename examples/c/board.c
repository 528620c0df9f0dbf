#include <string.h>
#include "board.h"

void board_new(struct board *board)
{
	memset(board, 0, sizeof *board);
	swd_target_new(&board->target, 1, 0);
}

/* Makes the transfer that the target wants, and tells it what came of it. Gives whether the target takes that. */
static bool transfer(struct board *board)
{
	struct swd_transfer wanted = swd_target_wants(&board->target);
	uint32_t place = (wanted.addr - BOARD_BASE) / 4;
	if (wanted.addr % 4 != 0 || wanted.addr < BOARD_BASE || place >= BOARD_WORDS)
		return swd_target_settle(&board->target, SWD_BUS_FAULT, 0);
	board->transfers++;
	board->last = wanted;
	if (wanted.kind == SWD_READ)
		return swd_target_settle(&board->target, SWD_VALUE, board->words[place]);
	board->words[place] = wanted.word;
	return swd_target_settle(&board->target, SWD_WRITTEN, 0);
}

/* One clock of the bus. While a transfer is under way, the host has to wait. Gives whether the target takes that. */
static bool bus_clock(struct board *board)
{
	if (board->left > 0) {
		if (--board->left == 0)
			return transfer(board) && swd_target_hold(&board->target, 0);
	} else if (board->takes > 0 && swd_target_wants(&board->target).kind != SWD_NONE) {
		board->left = board->takes;
		return swd_target_hold(&board->target, 1);
	}
	return true;
}

int board_clock(struct board *board, int drive)
{
	uint8_t bit = drive < 0 ? SWD_RELEASED : (uint8_t)drive, line;
	if (drive >= 0 && board->target.cycles + 1 == board->spoils)
		bit ^= 1;
	line = swd_target_cycle(&board->target, bit);
	if (line == SWD_WANTS) {
		board->left = 0;
		if (!transfer(board))
			return -1;
		line = swd_target_cycle(&board->target, bit);
	}
	return line <= 1 && bus_clock(board) ? line : -1;
}
