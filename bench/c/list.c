/* The workload by the library's run over a whole list. */
#include "border.h"

static uint64_t run(struct target *t, const struct swd_access *accesses, struct swd_outcome *answers)
{
	struct swd_run run;
	struct swd_cue cue;
	swd_run_new(&run, TRIES);
	cue = swd_run_cue(&run);
	while (cue.kind != SWD_REST)
		cue = swd_run_next(&run, accesses, MOST, answers, MOST, reply(t, &cue));
	if (run.end.kind != SWD_ALL)
		abort();
	return run.requests;
}

int main(void)
{
	run_rounds(run);
	return 0;
}
