/* Cues of the library, carried out at the target. */
#ifndef BENCH_BORDER_H
#define BENCH_BORDER_H

#include "workload.h"

/* Carries a cue out, and returns what was seen. */
static uint64_t reply(struct target *t, const struct swd_cue *cue)
{
	switch (cue->kind) {
	case SWD_LEAD:
		target_lead(t, cue->ones);
		return 0;
	case SWD_ASK:
		return target_ask(t, cue->request);
	case SWD_TAKE:
		return target_take(t);
	case SWD_GIVE:
		target_give(t, cue->bits);
		return 0;
	case SWD_PASS:
		return 0;
	default:
		abort();
	}
}

#endif
