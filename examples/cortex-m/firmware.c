/*
 * What a probe's firmware takes of the library: sessions over two pins of a port. It is linked to see how large that
 * is, and run nowhere; the port's registers are those of no chip.
 */
#include "line.h"

static volatile struct {
	uint32_t clock, data, drives, level;
} port;

int line_clock(int drive)
{
	int bit;
	port.drives = drive != RELEASED;
	port.data = drive == 1;
	port.clock = 0;
	bit = port.level & 1;
	port.clock = 1;
	return bit;
}

enum { MOST_ACCESSES = 4 };

static struct swd_run run;
static struct swd_access accesses[MOST_ACCESSES];
static struct swd_outcome answers[MOST_ACCESSES];
extern uint32_t stack_end;

/* Does the accesses by the run, and gives whether all were answered. */
static bool does_all(void)
{
	struct swd_cue cue = line_run(&run, accesses, MOST_ACCESSES, answers);
	return cue.kind == SWD_REST && cue.outcome.kind == SWD_ALL;
}

/* Opens a target and does the accesses; as long as all are answered, it does them again over the open target. */
void reset(void);

void reset(void)
{
	swd_run_new(&run, 8);
	while (does_all() && swd_run_opened(&run, accesses, MOST_ACCESSES, 0, 8).kind != SWD_REFUSED)
		;
	for (;;)
		;
}

__attribute__((section(".vectors"), used)) static void *const vectors[] = { &stack_end, (void *)reset };
