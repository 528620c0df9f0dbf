/*
 * Calls on structs of any bytes, and of bytes near to those of a struct in order: each call gives back control, and
 * what it refuses it leaves as it was. Takes the number of calls. The numbers are drawn one in a statement, so that
 * every compiler draws them in the same order, and prints the same.
 */
#include <stdio.h>
#include <stdlib.h>
#include <string.h>
#include "swd.h"

static uint64_t state = 88172645463325252u;

static uint64_t any(void)
{
	state ^= state << 13;
	state ^= state >> 7;
	state ^= state << 17;
	return state;
}

/* A number with any number of bits. */
static uint64_t some(void)
{
	uint64_t bits = any();
	return bits >> any() % 64;
}

static unsigned long calls, refused;

static void fill(void *object, size_t size)
{
	unsigned char *bytes = (unsigned char *)object;
	uint64_t kind = any() % 3, most = 1 + any() % 14;
	size_t i;
	for (i = 0; i < size; i++) {
		if (kind == 0)
			bytes[i] = (unsigned char)any();
		else if (kind == 1)
			bytes[i] = (unsigned char)(any() % most);
		else
			bytes[i] = 0;
	}
}

/* Changes up to two bytes. */
static void spoil(void *object, size_t size)
{
	unsigned char *bytes = (unsigned char *)object;
	uint64_t count = any() % 3;
	while (count-- > 0) {
		size_t place = (size_t)(any() % size);
		bytes[place] = (unsigned char)(any() % 2 ? any() : any() % 14);
	}
}

static void fail(const char *what)
{
	printf("%s\n", what);
	exit(1);
}

static void count(bool was_refused, const void *before, const void *after, size_t size)
{
	calls++;
	if (was_refused) {
		refused++;
		if (memcmp(before, after, size) != 0)
			fail("refused, but changed");
	}
}

/* A reply as of a target, mostly. */
static uint64_t reply(const struct swd_cue *cue)
{
	if (any() % 8 == 0)
		return some();
	return cue->kind == SWD_ASK ? (any() % 4 ? 1 : any() % 8) : any() % ((uint64_t)1 << 33);
}

static struct swd_run make_run(void)
{
	struct swd_run run;
	memset(&run, 0, sizeof run);
	switch (any() % 4) {
	case 0:
		fill(&run, sizeof run);
		break;
	case 1:
		swd_run_blocks(&run, (uint32_t)some());
		break;
	default:
		swd_run_new(&run, (uint32_t)some());
		break;
	}
	return run;
}

/* Makes a run over an open target of any run, or is refused. */
static void open_run(struct swd_run *run, const struct swd_access *accesses, size_t most)
{
	struct swd_run before = *run;
	uint8_t blocks = (uint8_t)any();
	struct swd_cue cue = swd_run_opened(run, accesses, most, blocks, (uint32_t)some());
	count(cue.kind == SWD_REFUSED, &before, run, sizeof *run);
	if (cue.kind == SWD_REFUSED && cue.outcome.kind != SWD_UNALIGNED)
		fail("refused for another reason");
	if (cue.kind != SWD_REFUSED && cue.kind != (most ? SWD_ASK : SWD_LEAD))
		fail("an open run that begins otherwise");
}

/* Answers that nothing was written over. */
static const struct swd_outcome unwritten = { 0x55555555, 0x55 };

static void try_run(void)
{
	struct swd_run run = make_run();
	struct swd_access accesses[3];
	int i;
	fill(accesses, sizeof accesses);
	for (i = 0; i < 3; i++)
		accesses[i].addr &= any() % 8 ? ~(uint32_t)3 : ~(uint32_t)0;
	if (any() % 4 == 0)
		open_run(&run, accesses, any() % 8 ? 3 : 0);
	for (i = 0; i < 120; i++) {
		struct swd_run before = run;
		struct swd_outcome answers[3] = { unwritten, unwritten, unwritten };
		struct swd_cue cue = swd_run_cue(&run);
		size_t room = any() % 16 ? 3 : (size_t)(any() % 4), at;
		count(cue.kind == SWD_REFUSED, &before, &run, sizeof run);
		if (cue.kind > SWD_PASS && cue.kind != SWD_REFUSED)
			fail("no cue");
		cue = swd_run_next(&run, accesses, 3, answers, room, reply(&cue));
		count(cue.kind == SWD_REFUSED, &before, &run, sizeof run);
		for (at = 0; at < 3; at++) {
			bool came = cue.kind != SWD_REFUSED && at >= before.answered && at < run.answered;
			if ((answers[at].kind != unwritten.kind) != came)
				fail("an answer at another index");
		}
		if (cue.kind == SWD_REFUSED && cue.outcome.kind > SWD_NO_ROOM)
			fail("refused for no reason");
		before = run;
		if (any() % 16 == 0)
			count(!swd_run_again(&run, (uint32_t)some()), &before, &run, sizeof run);
		if (any() % 16 == 0)
			spoil(&run, sizeof run);
	}
}

static struct swd_decoder make_decoder(void)
{
	struct swd_decoder decoder;
	memset(&decoder, 0, sizeof decoder);
	if (any() % 2)
		swd_decoder_new(&decoder);
	else
		fill(&decoder, sizeof decoder);
	if (any() % 2) {
		decoder.mode = (uint8_t)(1 + any() % 4);
		decoder.one &= 1;
		decoder.len %= 51;
		decoder.bits &= ((uint64_t)1 << decoder.len) - 1;
	}
	return decoder;
}

static void try_decoder(void)
{
	struct swd_decoder decoder = make_decoder();
	struct swd_item item;
	int i;
	memset(&item, 0, sizeof item);
	for (i = 0; i < 40; i++) {
		struct swd_decoder before = decoder;
		uint8_t most = (uint8_t)(any() % 70), taken = swd_decoder_take(&decoder, some(), most);
		if (taken > most)
			fail("too many bits");
		count(taken == 0, &before, &decoder, sizeof decoder);
		before = decoder;
		count(!swd_decoder_due(&decoder, &item), &before, &decoder, sizeof decoder);
		if (item.kind > SWD_CUT)
			fail("no item");
		before = decoder;
		if (any() % 16 == 0)
			count(!swd_decoder_last(&decoder, &item), &before, &decoder, sizeof decoder);
		if (any() % 4 == 0)
			spoil(&decoder, sizeof decoder);
	}
}

static struct swd_target make_target(void)
{
	struct swd_target target;
	memset(&target, 0, sizeof target);
	if (any() % 4) {
		uint8_t wraps = (uint8_t)any();
		swd_target_new(&target, wraps, (uint32_t)any());
	} else {
		fill(&target, sizeof target);
	}
	return target;
}

static unsigned long wants;

static void settle(struct swd_target *target)
{
	struct swd_target before = *target;
	struct swd_transfer wanted = swd_target_wants(target);
	uint8_t kind = wanted.kind == SWD_READ ? (uint8_t)SWD_VALUE : (uint8_t)SWD_WRITTEN;
	if (any() % 4 == 0)
		kind = any() % 2 ? (uint8_t)SWD_BUS_FAULT : (uint8_t)any();
	count(!swd_target_settle(target, kind, (uint32_t)any()), &before, target, sizeof *target);
}

static void hold(struct swd_target *target)
{
	struct swd_target before = *target;
	count(!swd_target_hold(target, (uint8_t)(any() % 2)), &before, target, sizeof *target);
}

static void clock_target(struct swd_target *target, uint8_t drive)
{
	struct swd_target before = *target;
	uint8_t line = swd_target_cycle(target, drive);
	count(line >= SWD_WANTS, &before, target, sizeof *target);
	if (line > SWD_WANTS && line != SWD_REFUSED)
		fail("no bit");
	if (line == SWD_WANTS) {
		wants++;
		if (swd_target_wants(target).kind == SWD_NONE)
			fail("nothing is wanted");
		settle(target);
	}
}

static void send(struct swd_target *target, uint64_t bits, unsigned count)
{
	for (; count > 0; count--, bits >>= 1)
		clock_target(target, (uint8_t)(bits & 1));
}

static void leave(struct swd_target *target, unsigned count)
{
	for (; count > 0; count--)
		clock_target(target, SWD_RELEASED);
}

/* A request and its data, whatever is answered; the parity of a write is wrong now and then. */
static void transact(struct swd_target *target, uint8_t request, uint32_t word)
{
	uint64_t odd = any() % 16 == 0, bits = word;
	for (; bits; bits &= bits - 1)
		odd ^= 1;
	send(target, request, 8);
	if (SWD_REQUEST_READ(request)) {
		leave(target, 38);
	} else {
		leave(target, 5);
		send(target, word | odd << 32, 33);
	}
}

static void try_target(void)
{
	/* DPIDR, ABORT, CTRL/STAT both ways, RDBUFF, CSW, TAR, and DRW both ways. */
	static const uint8_t requests[] = { 0xa5, 0x81, 0x8d, 0xa9, 0xbd, 0xa3, 0x8b, 0x9f, 0xbb, 0x9f, 0xbb };
	struct swd_target target = make_target();
	int i;
	send(&target, ((uint64_t)1 << 56) - 1, 58);
	transact(&target, 0xa5, 0);
	transact(&target, 0xa9, 0x50000000);
	for (i = 0; i < 12; i++) {
		uint8_t request = requests[any() % sizeof requests];
		transact(&target, request, i < 6 ? 0x50000000 : (uint32_t)any());
		if (any() % 4 == 0)
			settle(&target);
		if (any() % 8 == 0)
			hold(&target);
		if (any() % 16 == 0)
			clock_target(&target, (uint8_t)any());
		if (any() % 16 == 0)
			spoil(&target, sizeof target);
	}
}

static struct swd_item make_item(void)
{
	/* A line reset, idle cycles, DPIDR, CTRL/STAT both ways, TAR, DRW and RDBUFF. */
	static const uint8_t requests[] = { 0xa5, 0x8d, 0xa9, 0x8b, 0xaf, 0x9f, 0xbb, 0xbd, 0x81, 0xb1 };
	static const uint8_t acks[] = { 1, 1, 1, 1, 1, 2, 4, 7 };
	struct swd_item item;
	memset(&item, 0, sizeof item);
	switch (any() % 8) {
	case 0:
		fill(&item, sizeof item);
		break;
	case 1:
		item.kind = (uint8_t)(1 + any() % 6);
		item.count = item.kind == SWD_CUT ? any() % 52 : item.kind == SWD_RESET || item.kind == SWD_IDLE ? some() : 0;
		break;
	default:
		item.kind = SWD_TRANSACTION;
		item.request = requests[any() % sizeof requests];
		item.ack = acks[any() % sizeof acks];
		item.parity_ok = item.ack == 1 && any() % 16;
		if (item.ack == 1)
			item.word = item.request == 0xa5 ? 0x2ba01477 : item.request == 0x8d ? 0xf0000000 : (uint32_t)any();
		break;
	}
	return item;
}

static struct swd_check make_check(void)
{
	struct swd_check check;
	memset(&check, 0, sizeof check);
	if (any() % 4 == 0) {
		fill(&check, sizeof check);
	} else {
		uint8_t start = (uint8_t)(1 + any() % 3);
		if (!swd_check_new(&check, start, (uint8_t)(any() % 2)))
			fail("a start was refused");
	}
	return check;
}

static void try_check(void)
{
	struct swd_check check = make_check();
	int i;
	for (i = 0; i < 12; i++) {
		struct swd_check before = check;
		struct swd_verdict verdict, unwritten_verdict;
		struct swd_item item = make_item();
		bool told;
		count(!swd_check_watch(&check, &item, some()), &before, &check, sizeof check);
		memset(&verdict, 0x55, sizeof verdict);
		unwritten_verdict = verdict;
		told = swd_check_verdict(&check, &verdict);
		count(!told, &unwritten_verdict, &verdict, sizeof verdict);
		if (told && (verdict.kind < SWD_FITS || verdict.kind > SWD_CROWDED || verdict.rule > 11))
			fail("no verdict");
		if (any() % 8 == 0)
			spoil(&check, sizeof check);
	}
}

int main(int argc, char **argv)
{
	unsigned long most = argc > 1 ? strtoul(argv[1], NULL, 10) : 10000000;
	while (calls < most) {
		try_run();
		try_decoder();
		try_target();
		try_check();
	}
	printf("%lu calls, %lu gave nothing, %lu times a target wanted a transfer first\n", calls, refused, wants);
	return 0;
}
