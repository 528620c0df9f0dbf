/*
 * Packets to a CMSIS-DAP probe, and sequences of clocks by them.
 */
#ifndef DAP_H
#define DAP_H

#include "swd.h"

enum { DAP_LONGEST = 512 };
#define DAP_FAILED (~(uint64_t)0)

/*
 * A way to a probe. After a failure nothing more may be sent over it: a reply may be unread.
 */
struct dap {
	int in, out;
	bool framed; /* each packet has its length before it, two bytes; else it is a report, of `size` bytes */
	size_t size, packets; /* the size of packets, and how many were sent */
	uint8_t *packet; /* the packet to send, in `sent` */
	uint8_t sent[2 + DAP_LONGEST], reply[DAP_LONGEST];
};

/*
 * Has the probe drive serial wire at 1 MHz, make eight idle cycles behind each transaction that is OK, and repeat none.
 */
bool dap_connect(struct dap *dap, int in, int out, bool framed);

/*
 * Sends a packet of `length` bytes, and reads the reply. Gives its length: 0 if it isn't one to this command, of
 * `least` bytes or more. That of a report is `size`, whatever the reply is.
 */
size_t dap_exchange(struct dap *dap, size_t length, size_t least);

/*
 * Carries out a cue by sequences of clocks. Gives the reply to it, or DAP_FAILED.
 */
uint64_t dap_clocks(struct dap *dap, const struct swd_cue *cue);

#endif
