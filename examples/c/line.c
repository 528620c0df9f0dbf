#include <stdio.h>
#include <string.h>
#include "line.h"

enum { MOST_WORDS = 64 };

/* One clock, if none has failed. */
static int clock_line(struct line_failure *failure, int drive)
{
	int bit = failure->has_failed ? LINE_FAILED : line_clock(drive);
	if (bit < 0)
		failure->has_failed = true;
	return bit;
}

/* Gives how many of these bits were sent before the line failed. */
static uint32_t send(struct line_failure *failure, uint64_t bits, uint32_t count)
{
	uint32_t i;
	for (i = 0; i < count && clock_line(failure, (int)(bits & 1)) >= 0; i++)
		bits >>= 1;
	return i;
}

static void send_ones(struct line_failure *failure, uint32_t count, uint32_t undriven)
{
	uint32_t i;
	for (i = 0; i < count; i++)
		clock_line(failure, i < undriven ? RELEASED : 1);
}

static uint64_t receive(struct line_failure *failure, unsigned count)
{
	uint64_t bits = 0;
	unsigned i;
	for (i = 0; i < count; i++)
		bits |= (uint64_t)(clock_line(failure, RELEASED) != 0) << i;
	return bits;
}

static void lead(struct line_failure *failure, const struct swd_cue *cue)
{
	send_ones(failure, cue->ones, cue->undriven);
	if (cue->with_switch) {
		send(failure, SWD_SWITCH_BITS, 16);
		send_ones(failure, cue->ones, 0);
	}
	send(failure, 0, cue->zeros);
}

/* A turnaround, and the bits of a data phase; notes how many of them were made if the line fails inside. */
static void give(struct line_failure *failure, uint64_t bits)
{
	uint32_t made;
	if (clock_line(failure, RELEASED) < 0)
		return;
	made = send(failure, bits, 33);
	if (failure->has_failed) {
		failure->bits = bits;
		failure->made = made;
		failure->failed = 1;
	}
}

uint64_t line_reply(struct line_failure *failure, const struct swd_cue *cue)
{
	uint64_t seen = 0;
	switch (cue->kind) {
	case SWD_LEAD:
		lead(failure, cue);
		break;
	case SWD_ASK:
		send(failure, cue->request, 8);
		clock_line(failure, RELEASED);
		seen = receive(failure, 3);
		break;
	case SWD_TAKE:
		seen = receive(failure, 33);
		clock_line(failure, RELEASED);
		break;
	case SWD_GIVE:
		give(failure, cue->bits);
		break;
	case SWD_PASS:
		clock_line(failure, RELEASED);
		break;
	default:
		break;
	}
	return seen;
}

struct swd_cue line_try(struct swd_run *run, const struct swd_access *accesses, size_t count,
                        struct swd_outcome *answers, struct line_failure *failure)
{
	struct swd_cue cue = swd_run_cue(run);
	memset(failure, 0, sizeof *failure);
	while (cue.kind != SWD_REST && cue.kind != SWD_REFUSED) {
		uint64_t reply = line_reply(failure, &cue);
		cue = failure->has_failed ? swd_run_fail(run) : swd_run_next(run, accesses, count, answers, count, reply);
	}
	return cue;
}

struct swd_cue line_run(struct swd_run *run, const struct swd_access *accesses, size_t count,
                        struct swd_outcome *answers)
{
	struct line_failure failure;
	return line_try(run, accesses, count, answers, &failure);
}

/* Ends the data phase inside which the line failed. Gives whether it didn't fail again. */
static bool drop(struct line_failure *failure)
{
	uint32_t made = failure->made, more;
	uint64_t rest = swd_give_rest(failure->bits, made, failure->failed);
	more = send(failure, rest, 33 - made);
	if (failure->has_failed) {
		failure->bits = (failure->bits & (((uint64_t)1 << made) - 1)) | rest << made;
		failure->made += more;
		failure->failed++;
		return false;
	}
	failure->failed = 0;
	return true;
}

bool line_leave(struct line_failure *failure)
{
	failure->has_failed = false;
	if (failure->failed > 0 && !drop(failure))
		return false;
	receive(failure, 4);
	return !failure->has_failed;
}

bool line_program(struct swd_run *run, uint32_t addr, const uint32_t *words, size_t count)
{
	struct swd_access accesses[2 * MOST_WORDS];
	struct swd_outcome answers[2 * MOST_WORDS];
	struct swd_cue cue;
	size_t i;
	if (count > MOST_WORDS)
		return false;
	/* All are written, and then all are read. */
	for (i = 0; i < 2 * count; i++) {
		accesses[i].addr = addr + 4 * (uint32_t)(i % count);
		accesses[i].word = words[i % count];
		accesses[i].write = i < count;
	}
	cue = line_run(run, accesses, 2 * count, answers);
	if (cue.kind == SWD_REFUSED) {
		printf("%s\n", swd_refusal_name(cue.outcome.kind));
		return false;
	}
	for (i = 0; i < run->answered; i++) {
		if (answers[i].kind == SWD_BUS_FAULT || (i >= count && answers[i].word != words[i - count])) {
			printf("%08lx: %s %08lx\n", (unsigned long)accesses[i].addr, swd_outcome_name(answers[i].kind),
			       (unsigned long)answers[i].word);
			return false;
		}
	}
	if (run->end.kind != SWD_ALL) {
		printf("%s: %u of %u accesses answered, %u begun\n", swd_outcome_name(run->end.kind), (unsigned)run->answered,
		       2 * (unsigned)count, run->begun);
		return false;
	}
	return true;
}
