/*
 * Each list, block and poll once at its greatest size: 65,536 accesses, a run that is resumed behind 65,535 answers,
 * and a million reads of a status over a target that is opened once.
 */
#include <stdio.h>
#include "line.h"

enum { BASE = 0x20000000, WORDS = 65536, TRIES = 8 };

/* The requests of a list of writes at consecutive addresses: the opening, DRW for each, and in each kilobyte TAR before
 * its first word and RDBUFF after its last one. */
enum { REQUESTS = 9 + WORDS + 2 * (WORDS / 256) };

static struct swd_target target;
static uint32_t words[WORDS];
static struct swd_access accesses[WORDS];
static struct swd_outcome answers[WORDS];
/* From this cycle on nobody answers. */
static uint64_t silent_from;

/* Makes a transfer, and gives whether the target takes what came of it. */
static bool transfer(struct swd_transfer wanted)
{
	uint32_t place = (wanted.addr - BASE) / 4;
	if (wanted.kind == SWD_NONE)
		return true;
	if (place >= WORDS)
		return swd_target_settle(&target, SWD_BUS_FAULT, 0);
	if (wanted.kind == SWD_READ)
		return swd_target_settle(&target, SWD_VALUE, words[place]);
	words[place] = wanted.word;
	return swd_target_settle(&target, SWD_WRITTEN, 0);
}

int line_clock(int drive)
{
	uint8_t line = swd_target_cycle(&target, drive < 0 ? SWD_RELEASED : (uint8_t)drive);
	if (line > 1 || !transfer(swd_target_wants(&target)))
		return LINE_FAILED;
	return drive < 0 && target.cycles > silent_from ? 1 : line;
}

/* Each word is written with the complement of its address, or read. */
static void list(uint8_t write)
{
	uint32_t i;
	for (i = 0; i < WORDS; i++) {
		accesses[i].addr = BASE + 4 * i;
		accesses[i].word = ~accesses[i].addr;
		accesses[i].write = write;
		answers[i].kind = 0;
	}
}

static uint32_t count_answers(uint8_t kind)
{
	uint32_t i, count = 0;
	for (i = 0; i < WORDS; i++)
		count += answers[i].kind == kind && (kind != SWD_VALUE || answers[i].word == ~accesses[i].addr);
	return count;
}

/* Whether a block of reads is answered with the words that were written. */
static bool is_read(void)
{
	struct swd_run run;
	list(0);
	swd_run_blocks(&run, TRIES);
	return line_run(&run, accesses, WORDS, answers).outcome.kind == SWD_ALL && count_answers(SWD_VALUE) == WORDS;
}

/* A list of writes, and a block. `cycles` becomes those of the list up to the request that confirms the last write. */
static bool list_and_block(uint64_t *cycles)
{
	struct swd_run run;
	list(1);
	swd_run_new(&run, TRIES);
	if (line_run(&run, accesses, WORDS, answers).outcome.kind != SWD_ALL || run.requests != REQUESTS)
		return false;
	/* Its acknowledgement, data phase and turnaround, and eight idle cycles, are behind that request. */
	*cycles = target.cycles - 3 - 34 - 8;
	return count_answers(SWD_WRITTEN) == WORDS && is_read();
}

/* The acknowledgement of the request that confirms the last write is lost. */
static bool resumed_behind_all_but_one(uint64_t cycles)
{
	struct swd_run run;
	bool lost;
	swd_target_new(&target, 1, 0);
	silent_from = cycles;
	list(1);
	swd_run_new(&run, TRIES);
	lost = line_run(&run, accesses, WORDS, answers).outcome.kind == SWD_LOST && run.answered == WORDS - 1
		&& run.begun == 1;
	silent_from = UINT64_MAX;
	return lost && swd_run_again(&run, TRIES) && line_run(&run, accesses, WORDS, answers).outcome.kind == SWD_ALL
	       && count_answers(SWD_WRITTEN) == WORDS && is_read();
}

enum { POLLS = 1000000, RDBUFF = 0xbd };

/* What a target answers whose register at any address is 0 up to the last poll, and then 1. */
static uint64_t status_reply(const struct swd_cue *cue, uint8_t *request, uint32_t *polls)
{
	if (cue->kind == SWD_ASK) {
		*request = cue->request;
		return 1;
	}
	if (cue->kind != SWD_TAKE || *request != RDBUFF || ++*polls < POLLS)
		return 0;
	return 1 | (uint64_t)1 << 32;
}

/* A million reads of a status, of which the last one finds it ready, each a run over the target that is open. */
static bool ready_at_the_last_read(void)
{
	struct swd_access status = { 0x40000000, 0, 0 };
	struct swd_outcome answer = { 0, 0 };
	uint32_t polls = 0, reads;
	uint8_t request = 0;
	for (reads = 0; reads < POLLS && answer.word == 0; reads++) {
		struct swd_run run;
		struct swd_cue cue = swd_run_opened(&run, &status, 1, 0, TRIES);
		while (cue.kind != SWD_REST && cue.kind != SWD_REFUSED)
			cue = swd_run_next(&run, &status, 1, &answer, 1, status_reply(&cue, &request, &polls));
		if (run.end.kind != SWD_ALL || answer.kind != SWD_VALUE || run.requests != 3)
			return false;
	}
	return reads == POLLS && answer.word == 1;
}

static int said(const char *what, bool is_right)
{
	printf("%s: %s\n", what, is_right ? "right" : "wrong");
	return is_right ? 0 : 1;
}

int main(void)
{
	uint64_t cycles = 0;
	int wrong;
	silent_from = UINT64_MAX;
	swd_target_new(&target, 1, 0);
	wrong = said("a list of 65536 writes, and a block that reads them", list_and_block(&cycles));
	wrong |= said("a list resumed behind 65535 answers", resumed_behind_all_but_one(cycles));
	wrong |= said("a status that is ready at read 1000000", ready_at_the_last_read());
	return wrong;
}
