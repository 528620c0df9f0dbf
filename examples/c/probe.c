/*
 * A host over a CMSIS-DAP probe, which writes words to 20000000 and reads them back. swd_run_plan says which
 * transactions come next if each is OK. A packet of DAP_Transfer makes as many of them as fit, and the probe stops at
 * the first that isn't OK. Its reply is passed to the run, which then asks for just these transactions.
 *	probe FILE WORDS    by reports, as those of /dev/hidraw0
 *	probe - WORDS       by standard input and output, each packet behind its length: dap_bulk.c takes them to USB
 */
#include <fcntl.h>
#include <stdio.h>
#include <stdlib.h>
#include "dap.h"

enum { TRANSFER = 5, HEAD = 3, RDBUFF = 0xbd, MOST = 15, TRIES = 30 };
#define BASE 0x20000000u

/* How a transfer was answered: these, or the acknowledgement that was seen. */
static const uint8_t OK = 1, DAMAGED = 8;

static struct dap dap;
static struct swd_run run;
static struct swd_access list[MOST];
static struct swd_outcome answers[MOST];
static size_t count;
static struct swd_cue cue;
/* Whether the word of an AP read wasn't fetched yet, and whether the probe made idle cycles last. */
static bool posted, idled;

static bool posts(uint8_t request)
{
	return SWD_REQUEST_AP(request) && SWD_REQUEST_READ(request);
}

static bool reads_dp(uint8_t request)
{
	return !SWD_REQUEST_AP(request) && SWD_REQUEST_READ(request);
}

/* Whether the word of an AP read isn't fetched behind this request, if that is OK. */
static bool leaves_posted(bool before, uint8_t request)
{
	return SWD_REQUEST_AP(request) ? posts(request) : before && request != RDBUFF;
}

/*
 * Makes a packet of the first transactions of a plan, and gives how many of them the probe makes. It reads RDBUFF by
 * itself behind an AP read, unless another follows, and behind a last write. So a packet ends at a DP read, or at an AP
 * read behind which RDBUFF is planned. The probe drops the word of a packet's first AP read: that of an earlier one may
 * not be lost so.
 */
static size_t pack(const struct swd_planned *plan, size_t planned, size_t *length)
{
	size_t to = HEAD, back = HEAD, made = 0, at;
	bool behind = false, waits = posted;
	dap.packet[0] = TRANSFER;
	dap.packet[1] = 0;
	for (at = 0; at < planned; at++) {
		uint8_t request = plan[at].request, byte;
		bool reads = SWD_REQUEST_READ(request);
		if (behind && request == RDBUFF) {
			dap.packet[2] = (uint8_t)at;
			*length = to;
			return at + 1;
		}
		back += behind || reads_dp(request) ? 4 : 0;
		if ((posts(request) ? waits && !behind : behind) || to + (reads ? 1 : 5) > dap.size || back + 4 > dap.size)
			return made;
		dap.packet[to++] = request >> 1 & 15;
		for (byte = 0; !reads && byte < 4; byte++)
			dap.packet[to++] = (uint8_t)(plan[at].word >> 8 * byte);
		behind = posts(request);
		waits = leaves_posted(waits, request);
		if (reads_dp(request)) {
			dap.packet[2] = (uint8_t)(made = at + 1);
			*length = to;
		}
	}
	return made;
}

static void next(uint64_t seen)
{
	if (cue.kind == SWD_ASK && seen == OK)
		posted = leaves_posted(posted, cue.request);
	cue = swd_run_next(&run, list, count, answers, count, seen);
}

/* The word at a place of the reply, with its parity. */
static uint64_t data_at(size_t place)
{
	const uint8_t *bytes = dap.reply + place;
	uint32_t word = bytes[0] | (uint32_t)bytes[1] << 8 | (uint32_t)bytes[2] << 16 | (uint32_t)bytes[3] << 24, odd = word;
	int shift;
	for (shift = 16; shift > 0; shift /= 2)
		odd ^= odd >> shift;
	return (uint64_t)(odd & 1) << 32 | word;
}

/*
 * Passes a reply of `back` bytes to the run: the first transactions of the plan were OK, and the next one, if there is
 * one, wasn't. Gives false, and passes nothing, if the reply can't be that of a probe.
 */
static bool pass_on(const struct swd_planned *plan, size_t made, size_t back)
{
	size_t done = dap.reply[1], words = HEAD, at;
	uint8_t value = dap.reply[2];
	bool behind = false;
	if (back == 0 || value > DAMAGED || (value == OK ? done != dap.packet[2] : done >= made))
		return false;
	if (value == OK)
		done = made;
	for (at = 0; at < done; behind = posts(plan[at++].request))
		words += behind || reads_dp(plan[at].request) ? 4 : 0;
	if (words > back || (value == DAMAGED && !SWD_REQUEST_READ(plan[done].request)))
		return false;
	for (at = 0, words = HEAD, behind = false; at < done; behind = posts(plan[at++].request)) {
		bool has_word = behind || reads_dp(plan[at].request);
		next(OK);
		next(has_word ? data_at(words) : 0);
		words += has_word ? 4 : 0;
	}
	if (value != OK)
		next(value == DAMAGED ? OK : value);
	/* A word of wrong parity, or a turnaround. */
	if (value != OK && (cue.kind == SWD_TAKE || cue.kind == SWD_PASS))
		next((uint64_t)1 << 32);
	idled = value == OK;
	return true;
}

/* Carries out a cue by itself, unless it is idle cycles that the probe made. */
static bool carry_out(void)
{
	uint64_t seen = 0;
	if (!idled || cue.kind != SWD_LEAD || cue.ones > 0)
		seen = dap_clocks(&dap, &cue);
	idled = false;
	if (seen == DAP_FAILED)
		return false;
	next(seen);
	return true;
}

/* Performs a run. Gives whether it did the whole list. */
static bool perform(void)
{
	struct swd_planned plan[SWD_MOST_PLANNED];
	while (cue.kind != SWD_REST && cue.kind != SWD_REFUSED) {
		size_t length = 0;
		size_t made = pack(plan, swd_run_plan(&run, list, count, plan, SWD_MOST_PLANNED), &length);
		if (made > 0 ? !pass_on(plan, made, dap_exchange(&dap, length, HEAD)) : !carry_out()) {
			fprintf(stderr, "the probe's reply can't be used: all accesses of its packet may have been made\n");
			return false;
		}
	}
	return cue.kind == SWD_REST && cue.outcome.kind == SWD_ALL;
}

/* Writes or reads words from an index on, as many as a list has, over a target that is open. */
static bool move(size_t first, bool write)
{
	size_t at;
	for (at = 0; at < count; at++) {
		struct swd_access access = { BASE + 4 * (uint32_t)(first + at), ~(uint32_t)(first + at), write };
		list[at] = access;
	}
	/* Each write is confirmed by a read of RDBUFF; reads go in a burst, which one packet makes. */
	cue = swd_run_opened(&run, list, count, 1, TRIES);
	if (!perform())
		return false;
	for (at = 0; at < count; at++) {
		if (write ? answers[at].kind != SWD_WRITTEN : answers[at].kind != SWD_VALUE || answers[at].word != list[at].word)
			return false;
	}
	return true;
}

int main(int argc, char **argv)
{
	size_t words = argc == 3 ? strtoul(argv[2], NULL, 0) : 0, at, left;
	bool framed = argc == 3 && argv[1][0] == '-', write;
	int file = argc == 3 && !framed ? open(argv[1], O_RDWR) : 0;
	if (argc != 3 || file < 0 || !dap_connect(&dap, file, framed ? 1 : file, framed)) {
		fprintf(stderr, "usage: probe FILE|- WORDS: and there has to be a CMSIS-DAP probe\n");
		return 1;
	}
	swd_run_new(&run, TRIES);
	cue = swd_run_cue(&run);
	if (!perform())
		return 1;
	for (at = 0; at < 2 * words; at += count) {
		write = at < words;
		left = (write ? words : 2 * words) - at;
		count = left < (size_t)MOST ? left : (size_t)MOST;
		if (!move(write ? at : at - words, write))
			return 1;
	}
	fprintf(stderr, "%lu words written and verified, %lu packets\n", (unsigned long)words, (unsigned long)dap.packets);
	return 0;
}
