#include <stdio.h>
#include <string.h>
#include "monitor.h"

/* How many bits an item has. */
static uint64_t bits_in(const struct swd_item *item)
{
	switch (item->kind) {
	case SWD_TRANSACTION:
		return item->ack == 1 ? 46 : item->ack == 2 || item->ack == 4 ? 13 : 12;
	case SWD_SWITCH:
		return 16;
	case SWD_JUNK:
		return 1;
	default:
		return item->count;
	}
}

static void watch(struct monitor *monitor, const struct swd_item *item)
{
	if (!swd_check_watch(&monitor->check, item, monitor->place))
		monitor->refused = true;
	monitor->place += bits_in(item);
}

void monitor_new(struct monitor *monitor, uint8_t start, uint8_t clean)
{
	swd_decoder_new(&monitor->decoder);
	monitor->refused = !swd_check_new(&monitor->check, start, clean);
	monitor->place = 0;
}

void monitor_bit(struct monitor *monitor, int bit)
{
	struct swd_item item;
	if (swd_decoder_take(&monitor->decoder, bit != 0, 1) != 1)
		monitor->refused = true;
	while (swd_decoder_due(&monitor->decoder, &item))
		watch(monitor, &item);
}

struct swd_verdict monitor_verdict(const struct monitor *monitor)
{
	struct swd_verdict verdict;
	if (monitor->refused || !swd_check_verdict(&monitor->check, &verdict))
		memset(&verdict, 0, sizeof verdict);
	return verdict;
}

struct swd_verdict monitor_end(struct monitor *monitor)
{
	struct swd_item item;
	while (swd_decoder_last(&monitor->decoder, &item))
		watch(monitor, &item);
	return monitor_verdict(monitor);
}

void monitor_print(const struct swd_verdict *verdict)
{
	static const char *const kinds[] = { "fits", "breaks", "crowded" };
	uint8_t kind = verdict->kind;
	/* A check that never began decides nothing. */
	if (kind == SWD_FITS && !verdict->has_began)
		kind = SWD_CROWDED;
	if (kind < SWD_FITS || kind > SWD_CROWDED) {
		printf("no verdict\n");
		return;
	}
	printf("%s", kinds[kind - 1]);
	if (kind != SWD_FITS)
		printf(" @%llu", (unsigned long long)verdict->place);
	if (kind == SWD_BREAKS)
		printf(": %s", swd_rule_name(verdict->rule));
	if (kind == SWD_FITS && verdict->faults)
		printf(" faults %llu", (unsigned long long)verdict->faults);
	putchar('\n');
}
