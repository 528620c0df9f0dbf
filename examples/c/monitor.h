/*
 * A monitor of a line: the decoder and the checker behind each other, bit by bit.
 */
#ifndef MONITOR_H
#define MONITOR_H

#include "swd.h"

#ifdef __cplusplus
extern "C" {
#endif

struct monitor {
	struct swd_decoder decoder;
	struct swd_check check;
	uint64_t place; /* the number of bits before the next item */
	bool refused; /* decoder or checker refused a call: there is no verdict */
};

/* A monitor that has seen no bit; the rest is as of swd_check_new. */
void monitor_new(struct monitor *monitor, uint8_t start, uint8_t clean);

/* Takes the bit on the line at one clock. */
void monitor_bit(struct monitor *monitor, int bit);

/* What the bits show that decide an item so far, or all of them if the trace ends here; of kind 0 for no verdict. */
struct swd_verdict monitor_verdict(const struct monitor *monitor);
struct swd_verdict monitor_end(struct monitor *monitor);

/* Prints a verdict in one line: "fits", or "breaks @347: " and the rule; "crowded @0" for a check that never began. */
void monitor_print(const struct swd_verdict *verdict);

#ifdef __cplusplus
}
#endif

#endif
