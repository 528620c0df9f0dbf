/*
 * Checks swd.h against the archive: sizes and places of all fields, by swd_layout, and the constants, by what
 * the calls answer. Says what differs, with status 1.
 */
#include <stdio.h>
#include <string.h>
#include "board.h"
#include "line.h"

static int faults;

static void same(const char *what, uint64_t have, uint64_t want)
{
	if (have != want) {
		printf("%s: %llx, not %llx\n", what, (unsigned long long)have, (unsigned long long)want);
		faults = 1;
	}
}

/* The number of a field of so many bytes. */
static uint64_t numbered(size_t size, uint64_t number)
{
	uint64_t bytes = 0;
	size_t i;
	for (i = 0; i < size; i++)
		bytes = bytes << 8 | number;
	return bytes;
}

#define CHECK(field, number) same(#field, layout.field, numbered(sizeof layout.field, number))

static void check_fields(void)
{
	struct swd_layout layout;
	memset(&layout, 0xee, sizeof layout);
	swd_layout(&layout);
	CHECK(engine.requests, 1);
	CHECK(engine.state.outcome.word, 2);
	CHECK(engine.state.outcome.kind, 3);
	CHECK(engine.state.job.kind, 4);
	CHECK(engine.state.job.place, 5);
	CHECK(engine.state.job.error, 6);
	CHECK(engine.state.job.damaged, 7);
	CHECK(engine.state.kind, 8);
	CHECK(engine.state.phase, 9);
	CHECK(engine.task.addr, 10);
	CHECK(engine.task.word, 11);
	CHECK(engine.task.kind, 12);
	CHECK(engine.tar.word, 13);
	CHECK(engine.tar.known, 14);
	CHECK(engine.tries, 15);
	CHECK(engine.events, 16);
	CHECK(engine.aims, 17);
	CHECK(engine.bursts, 18);
	CHECK(engine.ahead, 19);
	CHECK(engine.begun, 20);
	CHECK(engine.stray, 21);
	CHECK(cue.bits, 22);
	CHECK(cue.ones, 23);
	CHECK(cue.zeros, 24);
	CHECK(cue.undriven, 25);
	CHECK(cue.outcome.word, 26);
	CHECK(cue.outcome.kind, 27);
	CHECK(cue.kind, 28);
	CHECK(cue.request, 29);
	CHECK(cue.with_switch, 30);
	CHECK(cue.begun, 31);
	CHECK(access.addr, 32);
	CHECK(access.word, 33);
	CHECK(access.write, 34);
	CHECK(decoder.fed, 35);
	CHECK(decoder.run, 36);
	CHECK(decoder.bits, 37);
	CHECK(decoder.mode, 38);
	CHECK(decoder.one, 39);
	CHECK(decoder.len, 40);
	CHECK(item.count, 41);
	CHECK(item.bits, 42);
	CHECK(item.word, 43);
	CHECK(item.kind, 44);
	CHECK(item.request, 45);
	CHECK(item.ack, 46);
	CHECK(item.parity_ok, 47);
	CHECK(target.cycles, 48);
	CHECK(target.frame.line.bits, 49);
	CHECK(target.frame.line.kind, 50);
	CHECK(target.frame.line.reg, 51);
	CHECK(target.frame.line.flips, 52);
	CHECK(target.frame.line.flip, 53);
	CHECK(target.frame.kind, 54);
	CHECK(target.frame.place, 55);
	CHECK(target.frame.byte, 56);
	CHECK(target.frame.reply, 57);
	CHECK(target.target.tar.word, 58);
	CHECK(target.target.tar.known, 59);
	CHECK(target.target.buffer.word, 60);
	CHECK(target.target.buffer.known, 61);
	CHECK(target.target.last_returned.word, 62);
	CHECK(target.target.last_returned.known, 63);
	CHECK(target.target.pending.word, 64);
	CHECK(target.target.pending.kind, 65);
	CHECK(target.target.filler, 66);
	CHECK(target.target.wrap, 67);
	CHECK(target.target.late, 68);
	CHECK(target.target.reset, 69);
	CHECK(target.target.sticky_error, 70);
	CHECK(target.target.write_error, 71);
	CHECK(target.target.read_ok, 72);
	CHECK(target.target.debug_power, 73);
	CHECK(target.target.system_power, 74);
	CHECK(target.target.power_up, 75);
	CHECK(target.target.apsel, 76);
	CHECK(target.target.apbanksel, 77);
	CHECK(target.target.dpbanksel, 78);
	CHECK(target.target.increments, 79);
	CHECK(target.target.csw_upper, 80);
	CHECK(target.waits, 81);
	CHECK(transfer.addr, 82);
	CHECK(transfer.word, 83);
	CHECK(transfer.kind, 84);
	same("struct swd_engine", sizeof(struct swd_engine), layout.engine_size);
	same("struct swd_cue", sizeof(struct swd_cue), layout.cue_size);
	same("struct swd_access", sizeof(struct swd_access), layout.access_size);
	same("struct swd_decoder", sizeof(struct swd_decoder), layout.decoder_size);
	same("struct swd_item", sizeof(struct swd_item), layout.item_size);
	same("struct swd_target", sizeof(struct swd_target), layout.target_size);
	same("struct swd_transfer", sizeof(struct swd_transfer), layout.transfer_size);
	same("struct swd_layout", sizeof(struct swd_layout), layout.layout_size);
}

static void check_run_fields(void)
{
	struct swd_run_layout layout;
	memset(&layout, 0xee, sizeof layout);
	swd_run_layout(&layout);
	CHECK(run.requests, 22);
	CHECK(run.engine.requests, 1);
	CHECK(run.engine.stray, 21);
	CHECK(run.end.word, 23);
	CHECK(run.end.kind, 24);
	CHECK(run.answered, 25);
	CHECK(run.begun, 26);
	CHECK(run.stage, 27);
	same("struct swd_run", sizeof(struct swd_run), layout.run_size);
	same("struct swd_run_layout", sizeof(struct swd_run_layout), layout.layout_size);
}

static void check_plan_fields(void)
{
	struct swd_plan_layout layout;
	memset(&layout, 0xee, sizeof layout);
	swd_plan_layout(&layout);
	CHECK(planned.word, 1);
	CHECK(planned.request, 2);
	same("struct swd_planned", sizeof(struct swd_planned), layout.planned_size);
	same("struct swd_plan_layout", sizeof(struct swd_plan_layout), layout.layout_size);
}

static void check_checker_fields(void)
{
	static struct swd_check_layout layout;
	size_t i;
	memset(&layout, 0xee, sizeof layout);
	swd_check_layout(&layout);
	CHECK(world.faults, 1);
	CHECK(world.buffer.places, 2);
	CHECK(world.buffer.word, 3);
	CHECK(world.buffer.kind, 4);
	CHECK(world.last_returned.places, 5);
	CHECK(world.last_returned.word, 6);
	CHECK(world.last_returned.kind, 7);
	CHECK(world.tar.first, 8);
	CHECK(world.tar.more, 9);
	CHECK(world.tar.known, 10);
	CHECK(world.reset, 11);
	CHECK(world.sticky_error, 12);
	CHECK(world.write_error, 13);
	CHECK(world.read_ok, 14);
	CHECK(world.debug, 15);
	CHECK(world.system, 16);
	CHECK(world.mem_ap, 17);
	CHECK(world.bank0, 18);
	CHECK(world.increments, 19);
	CHECK(world.pending, 20);
	CHECK(world.awaits, 21);
	CHECK(check.identification.places, 22);
	CHECK(check.identification.word, 23);
	CHECK(check.identification.kind, 24);
	CHECK(check.began, 25);
	CHECK(check.faults_before, 26);
	CHECK(check.gaps, 27);
	CHECK(check.broken, 28);
	CHECK(check.crowded, 29);
	CHECK(check.select, 30);
	CHECK(check.count, 31);
	CHECK(check.overfull, 32);
	CHECK(check.opening, 33);
	CHECK(check.clean, 34);
	CHECK(check.has_began, 35);
	CHECK(check.in_gap, 36);
	CHECK(check.stray, 37);
	CHECK(check.rule, 38);
	CHECK(check.is_crowded, 39);
	CHECK(verdict.place, 40);
	CHECK(verdict.began, 41);
	CHECK(verdict.faults, 42);
	CHECK(verdict.gaps, 43);
	CHECK(verdict.kind, 44);
	CHECK(verdict.rule, 45);
	CHECK(verdict.has_began, 46);
	for (i = 0; i < 64; i++) {
		CHECK(check.worlds[i].faults, 1);
		CHECK(check.worlds[i].awaits, 21);
	}
	same("struct swd_world", sizeof(struct swd_world), layout.world_size);
	same("struct swd_check", sizeof(struct swd_check), layout.check_size);
	same("struct swd_verdict", sizeof(struct swd_verdict), layout.verdict_size);
	same("struct swd_check_layout", sizeof(struct swd_check_layout), layout.layout_size);
}

static void check_version(void)
{
	char version[16];
	snprintf(version, sizeof version, "%d.%d.%d", SWD_VERSION_NUMBER >> 16, SWD_VERSION_NUMBER >> 8 & 255,
	         SWD_VERSION_NUMBER & 255);
	same("SWD_VERSION", (uint64_t)strcmp(version, SWD_VERSION), 0);
	same("swd_version", swd_version() & ~SWD_UNPROVED, SWD_VERSION_NUMBER);
}

static struct board board;

int line_clock(int drive)
{
	return board_clock(&board, drive);
}

/* Passes a reply to a run over no access. */
static struct swd_cue next(struct swd_run *run, uint64_t reply)
{
	struct swd_access none = { 0, 0, 0 };
	struct swd_outcome unused;
	return swd_run_next(run, &none, 0, &unused, 0, reply);
}

/* A run once its lead was sent. */
static struct swd_run led(void)
{
	struct swd_run run;
	swd_run_new(&run, 0);
	same("SWD_LEAD", swd_run_cue(&run).kind, SWD_LEAD);
	same("SWD_ASK", next(&run, 0).kind, SWD_ASK);
	return run;
}

static void check_cues(void)
{
	struct swd_run run = led();
	struct swd_cue cue;
	same("SWD_REFUSED", next(&run, 8).kind, SWD_REFUSED);
	same("SWD_TAKE", next(&run, 1).kind, SWD_TAKE);
	/* Bit 0 is 0, and the parity bit is 1. */
	cue = next(&run, 0x12ba01476);
	same("SWD_REST", cue.kind, SWD_REST);
	same("SWD_WRONG_ID", cue.outcome.kind, SWD_WRONG_ID);
	same("identification", cue.outcome.word, 0x2ba01476);
	run = led();
	next(&run, 1);
	/* Wrong parity, and no event allowed. */
	same("SWD_TRIES_OUT", next(&run, 1).outcome.kind, SWD_TRIES_OUT);
	run = led();
	next(&run, 1);
	next(&run, 0x2ba01477);
	same("SWD_GIVE", next(&run, 1).kind, SWD_GIVE);
	run = led();
	same("SWD_PASS", next(&run, 2).kind, SWD_PASS);
	same("SWD_CONFUSED", next(&run, 0).outcome.kind, SWD_CONFUSED);
	run = led();
	same("SWD_LOST", next(&run, 7).outcome.kind, SWD_LOST);
}

static void check_outcomes(void)
{
	static const struct swd_access accesses[3] = { { BOARD_BASE, 1, 1 },
	                                               { BOARD_BASE, 0, 0 },
	                                               { 0x30000000, 0, 0 } };
	static const uint8_t kinds[3] = { SWD_WRITTEN, SWD_VALUE, SWD_BUS_FAULT };
	struct swd_outcome answers[3];
	struct swd_run run;
	size_t i;
	board_new(&board);
	swd_run_new(&run, 8);
	same("SWD_ALL", line_run(&run, accesses, 3, answers).outcome.kind, SWD_ALL);
	for (i = 0; i < 3; i++)
		same("outcome", answers[i].kind, kinds[i]);
}

/* A run that ends at its first request, and what is refused before and after. */
static void check_runs(void)
{
	static const struct swd_access accesses[3] = { { BOARD_BASE, 1, 1 }, { BOARD_BASE, 0, 0 }, { BOARD_BASE + 2, 0, 0 } };
	struct swd_outcome answers[3];
	struct swd_run run, none;
	struct swd_cue cue;
	memset(&none, 0, sizeof none);
	cue = swd_run_next(&none, accesses, 2, answers, 3, 0);
	same("SWD_INVALID", cue.outcome.kind, SWD_INVALID);
	same("SWD_REFUSED", cue.kind, SWD_REFUSED);
	swd_run_new(&run, 8);
	same("SWD_LEAD", swd_run_cue(&run).kind, SWD_LEAD);
	cue = swd_run_next(&run, accesses, 3, answers, 3, 0);
	same("SWD_UNALIGNED", cue.outcome.kind, SWD_UNALIGNED);
	same("index", cue.outcome.word, 2);
	same("SWD_TOO_MANY", swd_run_next(&run, NULL, 65537, NULL, 65537, 0).outcome.kind, SWD_TOO_MANY);
	same("SWD_NO_ROOM", swd_run_next(&run, accesses, 2, answers, 1, 0).outcome.kind, SWD_NO_ROOM);
	same("SWD_ASK", swd_run_next(&run, accesses, 2, answers, 3, 0).kind, SWD_ASK);
	same("SWD_BAD_REPLY", swd_run_next(&run, accesses, 2, answers, 3, 8).outcome.kind, SWD_BAD_REPLY);
	cue = swd_run_next(&run, accesses, 2, answers, 3, 7);
	same("SWD_REST", cue.kind, SWD_REST);
	same("SWD_LOST", cue.outcome.kind, SWD_LOST);
	same("end", run.end.kind, SWD_LOST);
	same("requests", run.requests, 1);
	same("SWD_ENDED", swd_run_next(&run, accesses, 2, answers, 3, 7).outcome.kind, SWD_ENDED);
	same("again", swd_run_again(&run, 8), true);
	same("again", swd_run_again(&run, 8), false);
	cue = swd_run_opened(&run, accesses, 3, 0, 8);
	same("SWD_REFUSED of an open run", cue.kind, SWD_REFUSED);
	same("SWD_UNALIGNED of an open run", cue.outcome.kind, SWD_UNALIGNED);
	same("index of an open run", cue.outcome.word, 2);
	same("SWD_TOO_MANY of an open run", swd_run_opened(&run, NULL, 65537, 0, 8).outcome.kind, SWD_TOO_MANY);
	run.answered = 2;
	same("SWD_TOO_FEW", swd_run_next(&run, accesses, 1, answers, 3, 0).outcome.kind, SWD_TOO_FEW);
	board_new(&board);
	swd_run_blocks(&run, 8);
	same("SWD_ALL", line_run(&run, accesses, 2, answers).outcome.kind, SWD_ALL);
	same("answered", run.answered, 2);
	same("SWD_WRITTEN", answers[0].kind, SWD_WRITTEN);
	same("SWD_VALUE", answers[1].kind, SWD_VALUE);
	same("word", answers[1].word, 1);
	same("SWD_ASK of an open run", swd_run_opened(&run, accesses, 2, 1, 8).kind, SWD_ASK);
	same("SWD_ALL of an open run", line_run(&run, accesses, 2, answers).outcome.kind, SWD_ALL);
	same("answered", run.answered, 2);
}

/* Sends bits to the board's target, the first in time least significant. */
static void send(uint64_t bits, unsigned count)
{
	for (; count > 0; count--, bits >>= 1)
		board_clock(&board, (int)(bits & 1));
}

/* A write of the access port: its request and its data. */
static void write_port(uint8_t request, uint32_t word)
{
	unsigned odd = 0, i;
	for (i = 0; i < 32; i++)
		odd ^= word >> i & 1;
	send(request, 8);
	send(0x1f, 5);
	send(word | (uint64_t)odd << 32, 33);
}

static void check_target(void)
{
	struct swd_target *target = &board.target;
	struct swd_transfer wanted;
	/* TAR and DRW, and then RDBUFF's request, but for its last bit. */
	write_port(0x8b, BOARD_BASE);
	write_port(0xbb, 7);
	wanted = swd_target_wants(target);
	same("SWD_WRITE", wanted.kind, SWD_WRITE);
	same("address", wanted.addr, BOARD_BASE);
	same("word", wanted.word, 7);
	send(0xbd, 7);
	same("SWD_WANTS", swd_target_cycle(target, 1), SWD_WANTS);
	same("refused settle", swd_target_settle(target, SWD_VALUE, 7), false);
	same("SWD_WRITTEN", swd_target_settle(target, SWD_WRITTEN, 0), true);
	same("SWD_NONE", swd_target_wants(target).kind, SWD_NONE);
	same("bit", swd_target_cycle(target, 1), 1);
	same("SWD_RELEASED", swd_target_cycle(target, SWD_RELEASED), 1);
	same("OK", swd_target_cycle(target, SWD_RELEASED), 1);
	same("SWD_REFUSED", swd_target_cycle(target, 3), SWD_REFUSED);
}

/* The one item that so many bits are, where they end a trace. */
static struct swd_item item_of(struct swd_decoder *decoder, uint64_t bits, uint8_t count)
{
	struct swd_item item;
	memset(&item, 0, sizeof item);
	while (count > 0) {
		uint8_t taken = swd_decoder_take(decoder, bits, count);
		bits = taken < 64 ? bits >> taken : 0;
		count = (uint8_t)(count - taken);
		if (swd_decoder_due(decoder, &item) || taken == 0)
			return item;
	}
	if (!swd_decoder_last(decoder, &item))
		item.kind = 0;
	return item;
}

static void check_items(void)
{
	struct swd_decoder decoder;
	struct swd_item item;
	swd_decoder_new(&decoder);
	item = item_of(&decoder, 0, 3);
	same("SWD_IDLE", item.kind, SWD_IDLE);
	same("zeros", item.count, 3);
	swd_decoder_new(&decoder);
	item = item_of(&decoder, (1ull << 50) - 1, 51);
	same("SWD_RESET", item.kind, SWD_RESET);
	same("ones", item.count, 50);
	swd_decoder_new(&decoder);
	/* DPIDR's request, a turnaround, and FAULT with its turnaround. */
	item = item_of(&decoder, 0x18a5 | 1 << 8, 13);
	same("SWD_TRANSACTION", item.kind, SWD_TRANSACTION);
	same("request", item.request, 0xa5);
	same("ack", item.ack, 4);
	swd_decoder_new(&decoder);
	item = item_of(&decoder, 0xa5, 8);
	same("SWD_CUT", item.kind, SWD_CUT);
	same("bits", item.bits, 0xa5);
	same("length", item.count, 8);
	swd_decoder_new(&decoder);
	item = item_of(&decoder, 0xa4 | 1, 7);
	same("SWD_CUT", item.kind, SWD_CUT);
	swd_decoder_new(&decoder);
	/* Wrong parity. */
	item = item_of(&decoder, 0x85, 8);
	same("SWD_JUNK", item.kind, SWD_JUNK);
	same("bit", item.bits, 1);
}

/* A read of CTRL/STAT that is answered WAIT before any line reset. */
static void check_checks(void)
{
	static struct swd_check check;
	struct swd_verdict verdict;
	struct swd_item item;
	memset(&item, 0, sizeof item);
	item.kind = SWD_TRANSACTION;
	item.request = 0x8d;
	item.ack = 2;
	same("no start", swd_check_new(&check, 4, 0), false);
	same("no checker", swd_check_verdict(&check, &verdict), false);
	same("SWD_MADE", swd_check_new(&check, SWD_MADE, 0), true);
	same("verdict", swd_check_verdict(&check, &verdict), true);
	same("SWD_FITS", verdict.kind, SWD_FITS);
	same("item", swd_check_watch(&check, &item, 7), true);
	same("verdict", swd_check_verdict(&check, &verdict), true);
	same("SWD_BREAKS", verdict.kind, SWD_BREAKS);
	same("place", verdict.place, 7);
	same("rule", (uint64_t)strcmp(swd_rule_name(verdict.rule), "after a line reset only a read of DPIDR is answered"), 0);
	item.ack = 8;
	same("no item", swd_check_watch(&check, &item, 7), false);
	same("SWD_AT_REST", swd_check_new(&check, SWD_AT_REST, 0), true);
	same("SWD_ANY", swd_check_new(&check, SWD_ANY, 1), true);
}

int main(void)
{
	check_fields();
	check_run_fields();
	check_plan_fields();
	check_checker_fields();
	check_version();
	check_cues();
	check_outcomes();
	check_runs();
	check_target();
	check_items();
	check_checks();
	if (!faults)
		printf("swd.h is that of the archive\n");
	return faults;
}
