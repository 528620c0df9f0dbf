/*
 * A session: a target is opened once, and a word is polled until it is ready. The board behind it gets ready after some
 * transfers. Each poll is a list of one read, and costs three requests.
 */
#include <stdio.h>
#include "board.h"
#include "line.h"

enum { READY_AFTER = 20, MOST_POLLS = 100, POLL_REQUESTS = 3, POLL_CYCLES = 160 };

static struct board board;

int line_clock(int drive)
{
	if (board.transfers == READY_AFTER)
		board.words[0] |= 1;
	return board_clock(&board, drive);
}

/* Reads a word of a target that is open. Gives whether it did; says on standard output where not. */
static bool read_word(uint32_t addr, uint32_t *word)
{
	struct swd_access access = { addr, 0, 0 };
	struct swd_outcome answer = { 0, 0 };
	uint64_t before = board.target.cycles;
	struct swd_run run;
	struct swd_cue cue = swd_run_opened(&run, &access, 1, 0, 8);
	if (cue.kind == SWD_REFUSED) {
		printf("%s\n", swd_refusal_name(cue.outcome.kind));
		return false;
	}
	line_run(&run, &access, 1, &answer);
	if (run.end.kind != SWD_ALL || answer.kind != SWD_VALUE) {
		printf("%s, %s\n", swd_outcome_name(run.end.kind), swd_outcome_name(answer.kind));
		return false;
	}
	*word = answer.word;
	return run.requests == POLL_REQUESTS && board.target.cycles - before <= POLL_CYCLES;
}

int main(void)
{
	struct swd_access none = { 0, 0, 0 };
	struct swd_outcome unused;
	struct swd_run opening;
	uint32_t word = 0;
	int polls;
	board_new(&board);
	swd_run_new(&opening, 8);
	if (line_run(&opening, &none, 0, &unused).outcome.kind != SWD_ALL)
		return 1;
	for (polls = 0; polls < MOST_POLLS && !(word & 1); polls++) {
		if (!read_word(BOARD_BASE, &word))
			return 1;
	}
	printf("ready after %d polls, %lu cycles\n", polls, (unsigned long)board.target.cycles);
	return polls == READY_AFTER + 1 ? 0 : 1;
}
