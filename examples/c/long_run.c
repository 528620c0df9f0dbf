/*
 * A long run of host, target and decoder, by which two builds of the library are compared: lists of accesses over a
 * board whose bus takes its time, while bits arrive changed at either end. Prints a hash of every bit on the line, each
 * item that the decoder gives and each outcome. Takes the number of lists.
 */
#include <stdio.h>
#include <stdlib.h>
#include <string.h>
#include "board.h"
#include "line.h"

enum { MOST_ACCESSES = 32, KINDS = 10 };

static struct board board;
static struct swd_decoder decoder;
static unsigned long cycles, items, answered, outcomes[KINDS];
/* Of so many in a thousand clocks the host sees another bit. */
static uint32_t noise;

static uint32_t any(void)
{
	static uint32_t state = 12345;
	state ^= state << 13;
	state ^= state >> 17;
	state ^= state << 5;
	return state;
}

static uint64_t hash = 14695981039346656037u;

static void mix(uint64_t number)
{
	unsigned i;
	for (i = 0; i < 8; i++) {
		hash = (hash ^ (number & 0xff)) * 1099511628211u;
		number >>= 8;
	}
}

static void fail(const char *what)
{
	printf("%s\n", what);
	exit(1);
}

static void decode(int bit)
{
	struct swd_item item;
	if (swd_decoder_take(&decoder, (uint64_t)bit, 1) != 1)
		fail("a bit was not taken");
	while (swd_decoder_due(&decoder, &item)) {
		items++;
		mix(item.kind);
		mix(item.count);
		mix(item.bits);
		mix(item.word);
		mix(item.request);
		mix(item.ack);
		mix(item.parity_ok);
	}
}

int line_clock(int drive)
{
	int bit = board_clock(&board, drive);
	if (bit < 0)
		fail("the board refused a clock");
	if (drive == RELEASED && any() % 1000 < noise)
		bit ^= 1;
	cycles++;
	mix((uint64_t)(drive + 1));
	mix((uint64_t)bit);
	decode(bit);
	return bit;
}

static void fill(struct swd_access *accesses, size_t count, unsigned round)
{
	size_t i;
	for (i = 0; i < count; i++) {
		uint32_t place = any() % (BOARD_WORDS + 20);
		accesses[i].addr = BOARD_BASE + 4 * (round % 2 ? (uint32_t)i : place);
		accesses[i].word = any();
		accesses[i].write = round % 3 == 0 ? 0 : (uint8_t)(any() % 2);
	}
}

/* Goes through a list, with which the run may be continued after a lost acknowledgement. */
static void go_through(struct swd_run *run, const struct swd_access *accesses, size_t count, bool resumes)
{
	struct swd_outcome answers[MOST_ACCESSES];
	uint32_t i;
	memset(answers, 0, sizeof answers);
	for (;;) {
		uint32_t first = run->answered;
		struct swd_cue cue = line_run(run, accesses, count, answers);
		if (cue.kind == SWD_REFUSED || cue.outcome.kind >= KINDS)
			fail("no outcome");
		for (i = first; i < run->answered; i++) {
			outcomes[answers[i].kind]++;
			mix(answers[i].kind);
			mix(answers[i].word);
		}
		answered += run->answered - first;
		outcomes[cue.outcome.kind]++;
		mix(cue.outcome.kind);
		mix(cue.outcome.word);
		mix(cue.begun);
		mix(run->requests);
		if (cue.outcome.kind != SWD_LOST || !resumes || any() % 4 == 0 || !swd_run_again(run, 8))
			return;
	}
}

/* Goes through lists of one over the open target, each with a bit that may arrive changed. */
static void poll(const struct swd_access *accesses, size_t count)
{
	size_t i;
	for (i = 0; i < count; i++) {
		struct swd_run run;
		if (any() % 8 == 0)
			board.spoils = board.target.cycles + 1 + any() % 100;
		if (swd_run_opened(&run, accesses + i, 1, 0, any() % 9).kind == SWD_REFUSED)
			fail("a list of one was refused");
		go_through(&run, accesses + i, 1, true);
		if (run.end.kind != SWD_ALL)
			return;
	}
}

int main(int argc, char **argv)
{
	unsigned long lists = argc > 1 ? strtoul(argv[1], NULL, 10) : 400;
	unsigned round;
	size_t i;
	for (round = 0; round < lists; round++) {
		struct swd_access accesses[MOST_ACCESSES];
		struct swd_run run;
		size_t count = 1 + any() % MOST_ACCESSES;
		if (round % 20 == 0) {
			board_new(&board);
			swd_decoder_new(&decoder);
		}
		board.takes = any() % 40;
		noise = round % 4 == 3 ? 2 : 0;
		memset(accesses, 0, sizeof accesses);
		fill(accesses, count, round);
		if (round % 3 == 0)
			swd_run_blocks(&run, any() % 9);
		else
			swd_run_new(&run, any() % 9);
		if (any() % 2 == 0)
			board.spoils = board.target.cycles + 1 + any() % 2000;
		go_through(&run, accesses, count, round % 3 != 0);
		if (run.end.kind == SWD_ALL)
			poll(accesses, count);
	}
	for (i = 0; i < BOARD_WORDS; i++)
		mix(board.words[i]);
	printf("%08lx%08lx, %lu lists, %lu cycles, %lu items, %lu answers, outcomes", (unsigned long)(hash >> 32),
	       (unsigned long)(hash & 0xffffffffu), lists, cycles, items, answered);
	for (i = SWD_VALUE; i < KINDS; i++)
		printf(" %lu", outcomes[i]);
	putchar('\n');
	return 0;
}
