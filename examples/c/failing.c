/*
 * A line that fails, at each clock of a run in turn: the clock is made or not, and none after it works. Each answer is
 * then that of a line which doesn't fail, each word that is answered as written is there, and no other word is written.
 * Then the line works again, and the run is continued.
 */
#include <stdio.h>
#include <string.h>
#include "board.h"
#include "line.h"

enum { WORDS = 4, MOST_ACCESSES = 2 * WORDS };

static const uint32_t words[WORDS] = { 0x00000000, 0xdeadbeef, 0x12345678, 0x80000001 };
static const uint32_t written[WORDS] = { 0xffffffff, 0x00000001, 0x7fffffff, 0xcafef00d };

static struct board board;
/* How many clocks work before one fails, and whether that one is made. */
static unsigned long left;
static bool is_made;
static bool has_failed;
/* How many clocks were asked for after the first that failed, and whether another word was on the board after one. */
static unsigned long more;
static bool has_other;

static int clock_board(int drive)
{
	int bit = board_clock(&board, drive);
	size_t i;
	for (i = 0; i < WORDS; i++)
		has_other |= board.words[i] != words[i] && board.words[i] != written[i];
	return bit;
}

int line_clock(int drive)
{
	if (has_failed) {
		more++;
		return LINE_FAILED;
	}
	if (left == 0) {
		has_failed = true;
		if (is_made)
			clock_board(drive);
		return LINE_FAILED;
	}
	left--;
	return clock_board(drive);
}

struct list {
	const char *name;
	struct swd_access accesses[MOST_ACCESSES];
	size_t count;
	bool is_block;
};

/* Does a list over a new board whose line works for so many clocks. */
static struct swd_run run_list(const struct list *list, uint32_t tries, unsigned long clocks,
                               struct swd_outcome *answers, struct line_failure *failure)
{
	struct swd_run run;
	board_new(&board);
	memcpy(board.words, words, sizeof words);
	memset(answers, 0, MOST_ACCESSES * sizeof *answers);
	left = clocks;
	has_failed = has_other = false;
	more = 0;
	if (list->is_block)
		swd_run_blocks(&run, tries);
	else
		swd_run_new(&run, tries);
	line_try(&run, list->accesses, list->count, answers, failure);
	return run;
}

/* Continues a run whose line failed, over the line that works again. Gives whether each access is answered then. */
static bool is_continued(const struct list *list, struct swd_run *run, struct swd_outcome *answers,
                         const struct swd_outcome *sure, struct line_failure *failure)
{
	size_t i;
	has_failed = false;
	left = (unsigned long)-1;
	if (!line_leave(failure) || !swd_run_again(run, 8))
		return false;
	line_run(run, list->accesses, list->count, answers);
	for (i = 0; i < list->count; i++) {
		if (answers[i].kind != sure[i].kind || answers[i].word != sure[i].word)
			return false;
	}
	return run->end.kind == SWD_ALL && !has_other;
}

/* Whether the words on the board are those before the list, or those that its writes wrote, as far as the run says. */
static bool are_written(const struct list *list, const struct swd_run *run)
{
	size_t i;
	for (i = 0; i < list->count; i++) {
		const struct swd_access *access = &list->accesses[i];
		uint32_t place = (access->addr - BOARD_BASE) / 4, word = board.words[place];
		bool may_be_old = i >= run->answered, may_be_new = i < run->answered + run->begun;
		if (access->write && !(may_be_old && word == words[place]) && !(may_be_new && word == access->word))
			return false;
	}
	return true;
}

/* Whether what a run at a failing line says is certain: `sure` are the answers at one that doesn't fail. */
static bool is_right(const struct list *list, const struct swd_run *run, const struct swd_outcome *answers,
                     const struct swd_outcome *sure)
{
	size_t i;
	for (i = 0; i < list->count; i++) {
		if (i >= run->answered ? answers[i].kind != 0
		                       : answers[i].kind != sure[i].kind || answers[i].word != sure[i].word)
			return false;
	}
	return run->end.kind == SWD_LOST && more == 0 && !has_other && are_written(list, run);
}

/* Fails the line at each clock. Gives how many runs were wrong. */
static unsigned long fail_each(const struct list *list, uint32_t tries)
{
	struct swd_outcome sure[MOST_ACCESSES], answers[MOST_ACCESSES];
	unsigned long clocks, at, wrong = 0;
	struct line_failure failure;
	struct swd_run run = run_list(list, tries, (unsigned long)-1, sure, &failure);
	clocks = (unsigned long)board.target.cycles;
	if (run.end.kind != SWD_ALL)
		return 1;
	for (at = 0; at < clocks; at++) {
		run = run_list(list, tries, at, answers, &failure);
		if (!is_right(list, &run, answers, sure) || !is_continued(list, &run, answers, sure, &failure)) {
			if (wrong++ == 0)
				printf("%s, clock %lu: %s, %u answered\n", list->name, at, swd_outcome_name(run.end.kind),
				       (unsigned)run.answered);
		}
	}
	printf("%s, %u tries, lost at each of %lu clocks, %s: %lu wrong\n", list->name, (unsigned)tries, clocks,
	       is_made ? "made" : "not made", wrong);
	return wrong;
}

int main(void)
{
	static struct list lists[] = { { "reads", { { 0, 0, 0 } }, WORDS, false },
	                               { "a block", { { 0, 0, 0 } }, WORDS, true },
	                               { "writes and reads", { { 0, 0, 0 } }, 2 * WORDS, false } };
	unsigned long wrong = 0;
	size_t list, i;
	for (list = 0; list < sizeof lists / sizeof *lists; list++) {
		for (i = 0; i < lists[list].count; i++) {
			struct swd_access *access = &lists[list].accesses[i];
			access->addr = BOARD_BASE + 4 * (uint32_t)(i % WORDS);
			access->word = written[i % WORDS];
			access->write = lists[list].count > WORDS && i < WORDS;
		}
		for (i = 0; i < 4; i++) {
			is_made = i % 2;
			wrong += fail_each(&lists[list], i < 2 ? 8 : 0);
		}
	}
	return wrong == 0 ? 0 : 1;
}
