/*
 * Lists the items of a trace, from a file or standard input: a character 0 or 1 for each bit, blanks passed
 * over, and # up to the end of its line. What it writes is what `swd decode` does.
 */
#include <stdio.h>
#include "swd.h"

static void list_bits(uint64_t bits, uint64_t count)
{
	uint64_t i;
	for (i = 0; i < count; i++)
		putchar((int)('0' + (bits >> i & 1)));
}

static void list_transaction(const struct swd_item *item)
{
	printf("%s %x %s ", SWD_REQUEST_AP(item->request) ? "ap" : "dp", SWD_REQUEST_ADDR(item->request),
	       SWD_REQUEST_READ(item->request) ? "read" : "write");
	switch (item->ack) {
	case 1:
		printf("%s %08lx", item->parity_ok ? "ok" : "bad", (unsigned long)item->word);
		break;
	case 2:
		printf("wait");
		break;
	case 4:
		printf("fault");
		break;
	default:
		printf("none %u", item->ack);
		break;
	}
}

static void list(const struct swd_item *item)
{
	switch (item->kind) {
	case SWD_RESET:
		printf("reset %llu", (unsigned long long)item->count);
		break;
	case SWD_SWITCH:
		printf("switch");
		break;
	case SWD_IDLE:
		printf("idle %llu", (unsigned long long)item->count);
		break;
	case SWD_TRANSACTION:
		list_transaction(item);
		break;
	case SWD_JUNK:
		printf("junk %u", (unsigned)item->bits);
		break;
	case SWD_CUT:
		printf("cut ");
		list_bits(item->bits, item->count);
		break;
	default:
		break;
	}
	putchar('\n');
}

static void list_due(struct swd_decoder *decoder)
{
	struct swd_item item;
	while (swd_decoder_due(decoder, &item))
		list(&item);
}

/* Takes all of the bits, item by item. Gives whether the decoder took them. */
static bool take(struct swd_decoder *decoder, uint64_t bits, uint8_t count)
{
	while (count > 0) {
		uint8_t taken = swd_decoder_take(decoder, bits, count);
		if (taken == 0)
			return false;
		bits = taken < 64 ? bits >> taken : 0;
		count = (uint8_t)(count - taken);
		list_due(decoder);
	}
	return true;
}

/* Bits that wait to be taken. */
struct waiting {
	uint64_t bits;
	uint8_t count;
};

static bool add(struct swd_decoder *decoder, struct waiting *waiting, int bit)
{
	uint64_t bits = waiting->bits | (uint64_t)bit << waiting->count;
	if (++waiting->count < 64) {
		waiting->bits = bits;
		return true;
	}
	waiting->bits = 0;
	waiting->count = 0;
	return take(decoder, bits, 64);
}

/* Lists the items of a trace. Gives whether the text was one, and the decoder took all of it. */
static bool decode(FILE *in)
{
	struct swd_decoder decoder;
	struct waiting waiting = { 0, 0 };
	struct swd_item item;
	bool comment = false;
	int c;
	swd_decoder_new(&decoder);
	while ((c = getc(in)) != EOF) {
		if (comment) {
			comment = c != '\n';
		} else if (c == '0' || c == '1') {
			if (!add(&decoder, &waiting, c == '1'))
				return false;
		} else if (c == '#') {
			comment = true;
		} else if (c != ' ' && c != '\t' && c != '\r' && c != '\n') {
			return false;
		}
	}
	if (!take(&decoder, waiting.bits, waiting.count))
		return false;
	while (swd_decoder_last(&decoder, &item))
		list(&item);
	return !ferror(in);
}

int main(int argc, char **argv)
{
	FILE *in = argc > 1 ? fopen(argv[1], "rb") : stdin;
	if (!in || !decode(in)) {
		fprintf(stderr, "decode: bad trace\n");
		return 2;
	}
	if (fflush(stdout) || ferror(stdout)) {
		perror("decode: standard output");
		return 2;
	}
	return 0;
}
