/*
 * The simulated target of bench/run/host.rs, as C: a debug port with a memory access port, at the end of a wire.
 * Written for measurements, and proved in nothing.
 */
#ifndef BENCH_TARGET_H
#define BENCH_TARGET_H

#include <stdbool.h>
#include <stddef.h>
#include <stdint.h>
#include <stdlib.h>

/* Requests, as bytes. */
enum {
	DPIDR = 0xa5,
	ABORT = 0x81,
	CTRL_STAT = 0x8d,
	CTRL_STAT_WRITE = 0xa9,
	RESEND = 0x95,
	SELECT = 0xb1,
	RDBUFF = 0xbd,
	CSW = 0x87,
	CSW_WRITE = 0xa3,
	TAR = 0x8b,
	TAR_READ = 0xaf,
	DRW = 0x9f,
	DRW_WRITE = 0xbb
};

enum { ACK_OK = 1, ACK_WAIT = 2, ACK_FAULT = 4, ACK_NONE = 7 };

/* A mark of a plan; a number below 33 is the bit of a data phase that is changed. */
enum { MARK_CLEAN = 255, MARK_WAIT = 254 };

enum reset { UNRESET, FRESH, LIVE };
enum line { LINE_IDLE, LINE_DRIVEN, LINE_AWAITED };

struct transfer {
	uint32_t addr, word;
	bool read;
};

struct target {
	uint32_t base, size;
	uint32_t *words;
	struct transfer *log;
	size_t logged, room;
	const uint8_t *plan;
	size_t marks, next;
	uint32_t filler;
	enum reset reset;
	enum line line;
	/* While it drives: the data phase. While it awaits data: the request, and what is to be changed of them. */
	uint64_t driven;
	uint8_t awaited;
	uint64_t change;
	bool sticky_error, write_error, read_ok, debug_power, system_power, increments;
	uint32_t select, csw_upper, tar, buffer, last_returned;
};

static void *reserve(size_t count, size_t size)
{
	void *made = calloc(count, size);
	if (made == NULL)
		abort();
	return made;
}

static void target_new(struct target *t, uint32_t base, uint32_t size, size_t room, const uint8_t *plan, size_t marks)
{
	*t = (struct target){ .base = base, .size = size, .room = room, .plan = plan, .marks = marks };
	t->words = reserve(size, sizeof *t->words);
	t->log = reserve(room, sizeof *t->log);
}

static void target_free(struct target *t)
{
	free(t->words);
	free(t->log);
}

static bool is_read(uint8_t request)
{
	return request & 4;
}

static unsigned parity(uint64_t bits)
{
	return (unsigned)__builtin_parityll(bits);
}

/* The 33 bits of a data phase with this word. */
static uint64_t data_phase(uint32_t word)
{
	return word | (uint64_t)parity(word) << 32;
}

static uint32_t target_status(const struct target *t)
{
	return (uint32_t)t->sticky_error << 5 | (uint32_t)t->read_ok << 6 | (uint32_t)t->write_error << 7
	     | t->debug_power * 0x30000000u | t->system_power * 0xc0000000u;
}

static void target_transfer(struct target *t, bool read, uint32_t word)
{
	uint32_t addr = t->tar, place = (addr - t->base) / 4;
	if (addr % 4 != 0 || addr < t->base || place >= t->size || t->logged >= t->room) {
		t->sticky_error = true;
		t->buffer = t->filler;
		return;
	}
	if (read)
		word = t->buffer = t->words[place];
	else
		t->words[place] = word;
	t->log[t->logged++] = (struct transfer){ addr, word, read };
	if (t->increments)
		t->tar = (addr & ~UINT32_C(1023)) | ((addr + 4) & 1023);
}

static unsigned target_answer(const struct target *t, uint8_t request, bool waits)
{
	bool access_port = request & 2;
	if (t->reset == UNRESET || (t->reset == FRESH && request != DPIDR))
		return ACK_NONE;
	if (request == DPIDR || request == CTRL_STAT || request == ABORT)
		return ACK_OK;
	if (t->sticky_error || t->write_error || (access_port && !t->debug_power))
		return ACK_FAULT;
	return waits ? ACK_WAIT : ACK_OK;
}

static uint32_t target_value(const struct target *t, uint8_t request)
{
	switch (request) {
	case DPIDR:
		return 0x2ba01477;
	case CTRL_STAT:
		return target_status(t);
	case RESEND:
		return t->last_returned;
	default:
		return t->buffer;
	}
}

static bool returns_buffer(uint8_t request)
{
	return request == RDBUFF || request == CSW || request == TAR_READ || request == DRW;
}

/* What a read that was answered OK does. */
static void target_read(struct target *t, uint8_t request)
{
	if (returns_buffer(request)) {
		t->read_ok = true;
		t->last_returned = t->buffer;
	}
	switch (request) {
	case DPIDR:
		t->reset = LIVE;
		break;
	case RDBUFF:
		t->buffer = t->filler;
		break;
	case CSW:
		t->buffer = 2 | (uint32_t)t->increments << 4 | 1 << 6 | t->csw_upper << 24;
		break;
	case TAR_READ:
		t->buffer = t->tar;
		break;
	case DRW:
		target_transfer(t, true, 0);
		break;
	default:
		break;
	}
}

static void target_write(struct target *t, uint8_t request, uint32_t word)
{
	if (request & 2)
		t->buffer = t->last_returned = t->filler;
	switch (request) {
	case ABORT:
		t->sticky_error = t->sticky_error && !(word & 4);
		t->write_error = t->write_error && !(word & 8);
		break;
	case CTRL_STAT_WRITE:
		t->debug_power = word >> 28 & 1;
		t->system_power = word >> 30 & 1;
		break;
	case SELECT:
		t->select = word;
		break;
	case CSW_WRITE:
		t->increments = (word >> 4 & 3) == 1;
		t->csw_upper = word >> 24 & 0x7f;
		break;
	case TAR:
		t->tar = word;
		break;
	case DRW_WRITE:
		target_transfer(t, false, word);
		break;
	default:
		break;
	}
}

/* The calls of a host. */
static void target_lead(struct target *t, uint32_t ones)
{
	if (ones == 0)
		return;
	if (t->line == LINE_AWAITED)
		t->write_error = true;
	t->reset = FRESH;
	t->line = LINE_IDLE;
}

static unsigned target_ask(struct target *t, uint8_t request)
{
	uint8_t mark = t->next < t->marks ? t->plan[t->next] : MARK_CLEAN;
	unsigned ack = target_answer(t, request, mark == MARK_WAIT);
	t->next++;
	t->change = mark < 33 ? UINT64_C(1) << mark : 0;
	if (ack == ACK_OK && is_read(request)) {
		t->driven = data_phase(target_value(t, request)) ^ t->change;
		target_read(t, request);
		t->line = LINE_DRIVEN;
	} else if (ack == ACK_OK) {
		t->awaited = request;
		t->line = LINE_AWAITED;
	} else if (ack != ACK_NONE) {
		if (returns_buffer(request))
			t->read_ok = false;
		if (ack == ACK_FAULT && (request & 2) && !t->debug_power)
			t->sticky_error = true;
	}
	return ack;
}

static uint64_t target_take(struct target *t)
{
	if (t->line != LINE_DRIVEN)
		abort();
	t->line = LINE_IDLE;
	return t->driven;
}

static void target_give(struct target *t, uint64_t bits)
{
	if (t->line != LINE_AWAITED)
		abort();
	bits ^= t->change;
	if (parity(bits))
		t->write_error = true;
	else
		target_write(t, t->awaited, (uint32_t)bits);
	t->line = LINE_IDLE;
}

#endif
