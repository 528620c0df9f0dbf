/*
 * A session whose line fails at each of its clocks in turn: inside a list, a poll, a block of reads and a load of
 * words. What the run says is compared with the log of the target's transfers. Then the run is continued, or given up,
 * or the target is opened anew, and words are polled. At last a target doesn't keep a word, and one has no memory.
 *
 *	cuts [STEP]
 *
 * One of STEP clocks is tried. checks/wrong-bodies has lines and callers that do something wrong, which this notices.
 */
#include <stdio.h>
#include <stdlib.h>
#include <string.h>
#include "board.h"
#include "line.h"

enum { MOST_ACCESSES = 6, MOST_WRITES = 64, MOST_LEVELS = 2, TRIES = 8, POLLS = 3 };

/*
 * How the line fails: the clock isn't made; it is made; it is made, and its level comes late; the line fails again
 * while its cue is left; no later clock works.
 */
enum kind { BEFORE, AFTER, LATE, TWICE, GONE, KINDS };
static const char *const kind_names[] = { "before a clock", "after it", "its level late", "twice", "for good" };

enum then { RESUME, GIVE_UP, OPEN, THENS };
static const char *const then_names[] = { "resumed", "given up", "opened anew" };

struct list {
	const char *name;
	struct swd_access accesses[MOST_ACCESSES];
	size_t count;
	uint8_t is_block;
};

/* What a run says, and how often each write was made before it and in it. */
struct outcome {
	struct swd_run run;
	struct swd_outcome answers[MOST_ACCESSES];
	struct line_failure failure;
};

static struct board board;
static struct swd_transfer writes[MOST_WRITES];
static size_t written;

/*
 * The line: how many clocks work before one fails, and how; whether one has failed, how many were asked for since, in
 * how many the host drove, and in how many of these against the target.
 */
static unsigned long left, behind, driven, contended;
static enum kind kind;
static bool has_failed;

/* Whether the board loses what is written to its second word. */
static bool is_stuck;

/* The levels that came over the line and weren't taken yet: more than one where that of a clock that failed came late.
 * */
static int levels[MOST_LEVELS];
static size_t come;

static int clock_board(int drive)
{
	unsigned long before = board.transfers;
	int bit = board_clock(&board, drive);
	if (is_stuck)
		board.words[1] = 0;
	driven += drive != RELEASED;
	contended += drive != RELEASED && bit != drive;
	if (board.transfers != before && board.last.kind == SWD_WRITE && written < MOST_WRITES)
		writes[written++] = board.last;
	return bit;
}

/* What the caller sees of a clock that fails. */
static int fail(int drive)
{
	int bit = 1;
	has_failed = true;
	if (kind == AFTER || kind == LATE || (kind == TWICE && board.target.cycles % 2 == 1))
		bit = clock_board(drive);
	if (kind == LATE && drive == RELEASED)
		levels[come++] = bit;
	return LINE_FAILED;
}

int line_clock(int drive)
{
	int bit;
	behind += has_failed;
	if (has_failed && kind == GONE)
		return LINE_FAILED;
	/* The level of a clock that failed is dropped. */
	come = 0;
	if (left-- == 0)
		return fail(drive);
	bit = clock_board(drive);
	if (drive != RELEASED)
		return bit;
	levels[come++] = bit;
	bit = levels[0];
	levels[0] = levels[--come];
	return bit;
}

static void work(unsigned long clocks, enum kind then)
{
	left = clocks;
	kind = then;
	has_failed = false;
	behind = 0;
}

/* A new board behind a line that works, with another word at each place, and a target that was opened. */
static bool open_board(void)
{
	struct swd_run run;
	size_t place;
	board_new(&board);
	for (place = 0; place < MOST_ACCESSES; place++)
		board.words[place] = 0x80000000u + (uint32_t)place;
	written = come = 0;
	contended = 0;
	work((unsigned long)-1, BEFORE);
	swd_run_new(&run, TRIES);
	return line_run(&run, NULL, 0, NULL).outcome.kind == SWD_ALL;
}

/* Does a list over the open target. */
static void act(const struct list *list, struct outcome *outcome)
{
	/* That of another call, which line_try has to clear. */
	static const struct line_failure before = { true, 0x0aaaaaaaa, 10, 1 };
	struct swd_cue cue = swd_run_opened(&outcome->run, list->accesses, list->count, list->is_block, TRIES);
	memset(outcome->answers, 0, sizeof outcome->answers);
	outcome->failure = before;
	if (cue.kind != SWD_REFUSED)
		line_try(&outcome->run, list->accesses, list->count, outcome->answers, &outcome->failure);
}

/* How often an access is among the writes that the target made. */
static size_t times_of(const struct swd_access *access)
{
	size_t i, times = 0;
	for (i = 0; i < written; i++)
		times += writes[i].addr == access->addr && writes[i].word == access->word;
	return times;
}

/* Says whether a write was made that no access is. */
static bool has_foreign(const struct list *list)
{
	size_t i, j;
	for (i = 0; i < written; i++) {
		for (j = 0; j < list->count; j++) {
			const struct swd_access *access = &list->accesses[j];
			if (access->write && access->addr == writes[i].addr && access->word == writes[i].word)
				break;
		}
		if (j == list->count)
			return true;
	}
	return false;
}

/* The word that a read of a list gives: that of the last write before it to its address, or the one at first. */
static uint32_t word_of(const struct list *list, size_t index)
{
	uint32_t addr = list->accesses[index].addr;
	while (index-- > 0) {
		if (list->accesses[index].write && list->accesses[index].addr == addr)
			return list->accesses[index].word;
	}
	return 0x80000000u + (addr - BOARD_BASE) / 4;
}

/*
 * What is false in what a run says, NULL if nothing is. `begun` is how many accesses were in flight in a run before,
 * which may have been made once more.
 */
static const char *falsehood(const struct list *list, const struct outcome *outcome, size_t from, size_t begun)
{
	size_t i, answered = outcome->run.answered;
	for (i = 0; i < list->count; i++) {
		const struct swd_access *access = &list->accesses[i];
		const struct swd_outcome *answer = &outcome->answers[i];
		size_t times = times_of(access), more = i >= from && i < from + begun;
		if (i >= answered && answer->kind != 0)
			return "an answer that there isn't";
		if (i < answered && answer->kind != (access->write ? SWD_WRITTEN : SWD_VALUE))
			return "another answer";
		if (i < answered && !access->write && answer->word != word_of(list, i))
			return "a word that nobody read";
		if (access->write && i < answered && (times < 1 || times > 1 + more))
			return "a write that wasn't made once";
		if (access->write && i >= answered && times > (i < answered + outcome->run.begun) + more)
			return "a write that wasn't begun";
	}
	return has_foreign(list) ? "a word that nobody wrote" : NULL;
}

/* The clock of the rest that decides the parity, which may not fail, too: -1 if there is none. */
static long deciding(const struct line_failure *failure)
{
	if (failure->failed == 0)
		return -1;
	return failure->made < 32 ? 31 - (long)failure->made : 0;
}

/*
 * Leaves the cue inside which the line failed. It fails once more behind so many clocks, if it does so twice. The rest
 * of a data phase is driven once, but for a clock of it that failed and was made.
 */
static bool leave(struct line_failure *failure, unsigned long again)
{
	enum kind how = kind;
	unsigned long before = driven, most = failure->failed > 0 ? 34 - failure->made : 0;
	work((unsigned long)-1, BEFORE);
	if (how == TWICE && (long)again != deciding(failure))
		work(again, how);
	while (!line_leave(failure)) {
		if (left != (unsigned long)-1)
			return false;
	}
	work((unsigned long)-1, BEFORE);
	return driven - before <= most;
}

/* Brings the target to rest, and opens it: continues a run without accesses, whose line failed. */
static bool settle(void)
{
	struct swd_run run;
	swd_run_new(&run, TRIES);
	return swd_run_fail(&run).kind == SWD_REST && swd_run_again(&run, TRIES)
	       && line_run(&run, NULL, 0, NULL).outcome.kind == SWD_ALL;
}

/* Whether each word that is polled is the one on the board. */
static bool is_polled(void)
{
	static const struct list poll = { "a poll", { { 0, 0, 0 } }, 1, 0 };
	struct outcome outcome;
	struct list list = poll;
	uint32_t place;
	for (place = 0; place < POLLS; place++) {
		list.accesses[0].addr = BOARD_BASE + 8 * place;
		act(&list, &outcome);
		if (outcome.run.end.kind != SWD_ALL || outcome.answers[0].word != board.words[2 * place])
			return false;
	}
	return true;
}

/* Goes on after a line that failed. Says what is wrong, NULL if nothing is. */
static const char *go_on(const struct list *list, struct outcome *outcome, enum then then, unsigned long at)
{
	size_t from = outcome->run.answered, begun = outcome->run.begun;
	const char *what;
	if (!leave(&outcome->failure, at % 37))
		return "a cue that isn't left";
	if (then == RESUME) {
		if (!swd_run_again(&outcome->run, TRIES))
			return "a run that isn't continued";
		line_run(&outcome->run, list->accesses, list->count, outcome->answers);
		if (outcome->run.end.kind != SWD_ALL)
			return "a run that isn't continued to its end";
		what = falsehood(list, outcome, from, begun);
	} else {
		if (!settle() || (then == OPEN && !settle()))
			return "a target that isn't at rest";
		what = falsehood(list, outcome, from, begun);
	}
	if (!what && !is_polled())
		what = "a poll that isn't true";
	if (!what && contended > 0)
		what = "a clock that both ends drive";
	return !what && has_foreign(list) ? "a word that nobody wrote, later" : what;
}

/* Goes on over a line that is gone, and then over the line again. Says what is wrong, NULL if nothing is. */
static const char *come_back(const struct list *list, struct outcome *outcome, enum then then)
{
	const struct list poll = { "a poll", { { BOARD_BASE, 0, 0 } }, 1, 0 };
	bool decides = deciding(&outcome->failure) == 0;
	uint64_t cycles = board.target.cycles;
	struct outcome polled;
	int polls;
	if (line_leave(&outcome->failure) || settle())
		return "a line that is gone, and works";
	for (polls = 0; polls < POLLS; polls++) {
		act(&poll, &polled);
		if (polled.run.end.kind != SWD_LOST || polled.run.answered > 0)
			return "a poll of a line that is gone";
	}
	if (board.target.cycles != cycles)
		return "a clock behind one that failed";
	work((unsigned long)-1, BEFORE);
	/* (the line failed twice, the second time where the parity is decided) */
	return decides ? NULL : go_on(list, outcome, then, 0);
}

/* Fails the line at this clock of a list. Says what is wrong. */
static const char *cut(const struct list *list, unsigned long at, enum kind how, enum then then)
{
	struct outcome outcome;
	const char *what;
	if (!open_board())
		return "a target that isn't opened";
	work(at, how);
	act(list, &outcome);
	what = falsehood(list, &outcome, 0, 0);
	if (what || behind > 0)
		return what ? what : "a clock behind one that failed";
	if (outcome.run.end.kind != SWD_LOST)
		return "a run that isn't lost";
	return how == GONE ? come_back(list, &outcome, then) : go_on(list, &outcome, then, at);
}

/* Fails the line at each clock of a list, in each way. Gives how many cases were wrong, and adds up all of them. */
static unsigned long cut_each(const struct list *list, unsigned long step, unsigned long *tried)
{
	struct outcome whole;
	unsigned long clocks, at, failed = 0;
	const char *told = NULL;
	int how, then;
	if (!open_board())
		return 1;
	clocks = (unsigned long)board.target.cycles;
	act(list, &whole);
	if (whole.run.end.kind != SWD_ALL || falsehood(list, &whole, 0, 0))
		return 1;
	clocks = (unsigned long)board.target.cycles - clocks;
	for (at = 0; at < clocks; at += step) {
		for (how = 0; how < KINDS; how++) {
			for (then = 0; then < THENS; then++) {
				const char *what = cut(list, at, (enum kind)how, (enum then)then);
				++*tried;
				failed += what != NULL;
				if (what && what != told)
					printf("%s, clock %lu, failed %s, %s: %s\n", list->name, at, kind_names[how], then_names[then], what);
				told = what ? what : told;
			}
		}
	}
	return failed;
}

static void add(struct list *list, uint32_t place, uint32_t word, uint8_t write)
{
	struct swd_access *access = &list->accesses[list->count++];
	access->addr = BOARD_BASE + 4 * place;
	access->word = word;
	access->write = write;
}

/* Says what is wrong where the target doesn't keep a word, or has no memory there. NULL if nothing is. */
static const char *lose_word(void)
{
	static const uint32_t words[] = { 1, 2, 0 };
	struct swd_run run;
	bool is_found;
	board_new(&board);
	work((unsigned long)-1, BEFORE);
	is_stuck = true;
	swd_run_new(&run, TRIES);
	is_found = line_program(&run, BOARD_BASE, words, 3);
	is_stuck = false;
	if (is_found)
		return "a word that differs";
	swd_run_new(&run, TRIES);
	return line_program(&run, BOARD_BASE + 4 * (BOARD_WORDS - 2), words, 3) ? "a bus error" : NULL;
}

int main(int count, char **words)
{
	struct list lists[] = { { "a list", { { 0, 0, 0 } }, 0, 0 },
	                        { "a poll", { { 0, 0, 0 } }, 0, 0 },
	                        { "a block", { { 0, 0, 0 } }, 0, 1 },
	                        { "a load", { { 0, 0, 0 } }, 0, 0 } };
	unsigned long step = count > 1 ? strtoul(words[1], NULL, 10) : 1, tried = 0, failed = 0;
	const char *what;
	uint32_t i;
	add(&lists[0], 0, 0x00001001, 1);
	add(&lists[0], 1, 0, 0);
	add(&lists[0], 2, 0x7fffffff, 1);
	add(&lists[0], 0, 0, 0);
	add(&lists[1], 0, 0, 0);
	for (i = 0; i < MOST_ACCESSES; i++) {
		add(&lists[2], i, 0, 0);
		add(&lists[3], i, 0x00002001 + i, 1);
	}
	for (i = 0; i < sizeof lists / sizeof *lists; i++)
		failed += cut_each(&lists[i], step > 0 ? step : 1, &tried);
	what = lose_word();
	if (what)
		printf("found as written: %s\n", what);
	failed += what != NULL;
	printf("a line cut at %lu places: %lu wrong\n", tried, failed);
	return failed == 0 ? 0 : 1;
}
