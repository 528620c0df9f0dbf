#include <string.h>
#include <unistd.h>
#include "dap.h"

enum { INFO = 0, CONNECT = 2, CONFIGURE = 4, CLOCK = 0x11, DRIVE = 0x12, TURNAROUND = 0x13, CLOCKS = 0x1d, LEAST = 64 };

static bool read_all(int in, uint8_t *bytes, size_t length)
{
	ssize_t got = 1;
	for (; length > 0 && got > 0; bytes += got, length -= (size_t)got)
		got = read(in, bytes, length);
	return got > 0;
}

static size_t read_framed(struct dap *dap)
{
	uint8_t head[2];
	size_t length;
	if (!read_all(dap->in, head, 2))
		return 0;
	length = head[0] | (size_t)head[1] << 8;
	return length <= dap->size && read_all(dap->in, dap->reply, length) ? length : 0;
}

size_t dap_exchange(struct dap *dap, size_t length, size_t least)
{
	/* A report begins with its number, 0, and is padded. */
	size_t there = dap->framed ? 2 + length : 1 + dap->size, back = 0;
	dap->packets++;
	memset(dap->packet + length, 0, DAP_LONGEST - length);
	dap->sent[0] = (uint8_t)length;
	dap->sent[1] = dap->framed ? (uint8_t)(length >> 8) : 0;
	if (write(dap->out, dap->sent + !dap->framed, there) != (ssize_t)there)
		return 0;
	if (dap->framed)
		back = read_framed(dap);
	else if (read(dap->in, dap->reply, dap->size) == (ssize_t)dap->size)
		back = dap->size;
	return back >= least && dap->reply[0] == dap->packet[0] ? back : 0;
}

/* Sends a command whose reply has at least so many bytes, and this one behind the command. */
static bool command(struct dap *dap, const uint8_t *bytes, size_t length, size_t least, uint8_t status)
{
	memcpy(dap->packet, bytes, length);
	return dap_exchange(dap, length, least) > 0 && dap->reply[1] == status;
}

bool dap_connect(struct dap *dap, int in, int out, bool framed)
{
	static const uint8_t info[] = { INFO, 0xff }, wire[] = { CONNECT, 1 }, hertz[] = { CLOCK, 0x40, 0x42, 0x0f, 0 };
	static const uint8_t configure[] = { CONFIGURE, 8, 0, 0, 0, 0 }, turnaround[] = { TURNAROUND, 0 };
	memset(dap, 0, sizeof *dap);
	dap->packet = dap->sent + 2;
	dap->in = in;
	dap->out = out;
	dap->framed = framed;
	dap->size = LEAST;
	if (!command(dap, info, sizeof info, 4, 2))
		return false;
	dap->size = dap->reply[2] | (size_t)dap->reply[3] << 8;
	return dap->size >= LEAST && dap->size <= DAP_LONGEST && command(dap, wire, sizeof wire, 2, 1)
	    && command(dap, hertz, sizeof hertz, 2, 0) && command(dap, configure, sizeof configure, 2, 0)
	    && command(dap, turnaround, sizeof turnaround, 2, 0);
}

/* Drives a lead but for its released ones: at most 256 clocks, as each lead of a run has. */
static bool drive_lead(struct dap *dap, const struct swd_cue *cue, uint32_t released)
{
	uint8_t bytes[2 + 32] = { DRIVE };
	uint32_t ones = cue->ones - released, high = ones + (cue->with_switch ? 16 + cue->ones : 0), at;
	for (at = 0; at < high; at++) {
		bool level = at < ones || at >= ones + 16 || (SWD_SWITCH_BITS >> (at - ones) & 1);
		bytes[2 + at / 8] |= (uint8_t)(level << at % 8);
	}
	bytes[1] = (uint8_t)(high + cue->zeros);
	return command(dap, bytes, 2 + (high + cue->zeros + 7) / 8, 2, 0);
}

static bool release(struct dap *dap, uint32_t clocks)
{
	uint8_t bytes[] = { CLOCKS, 1, (uint8_t)(0x80 | clocks) };
	return command(dap, bytes, sizeof bytes, 2 + (clocks + 7) / 8, 0);
}

static uint64_t take(struct dap *dap)
{
	static const uint8_t bytes[] = { CLOCKS, 1, 0x80 | 34 };
	uint64_t bits = 0;
	int at;
	if (!command(dap, bytes, sizeof bytes, 7, 0))
		return DAP_FAILED;
	for (at = 5; at-- > 0;)
		bits = bits << 8 | dap->reply[2 + at];
	return bits & 0x1ffffffff;
}

uint64_t dap_clocks(struct dap *dap, const struct swd_cue *cue)
{
	uint8_t ask[] = { CLOCKS, 2, 8, cue->request, 0x80 | 4 }, give[9] = { CLOCKS, 2, 0x80 | 1, 33 };
	uint32_t released = cue->undriven < cue->ones ? cue->undriven : cue->ones;
	bool made;
	int at;
	for (at = 0; at < 5; at++)
		give[4 + at] = (uint8_t)(cue->bits >> 8 * at);
	switch (cue->kind) {
	case SWD_ASK:
		return command(dap, ask, sizeof ask, 3, 0) ? dap->reply[2] >> 1 & 7u : DAP_FAILED;
	case SWD_TAKE:
		return take(dap);
	case SWD_GIVE:
		made = command(dap, give, sizeof give, 3, 0);
		break;
	case SWD_PASS:
		made = release(dap, 1);
		break;
	default:
		made = (released == 0 || release(dap, released)) && drive_lead(dap, cue, released);
	}
	return made ? 0 : DAP_FAILED;
}
