/*
 * What the hosts of these examples share: the cues of a run, clock by clock.
 */
#ifndef LINE_H
#define LINE_H

#include "swd.h"

/*
 * One clock of the line. `drive` is the bit that the host drives, or RELEASED. Gives the bit on the line; an undriven
 * one reads 1. Gives LINE_FAILED, or another negative number, if the clock can't be made, or its level didn't come. A
 * level that comes late is dropped before the next clock, or else each later level is that of an earlier clock; a line
 * that can't do that fails from then on. Each example has its own.
 */
enum { RELEASED = -1, LINE_FAILED = -1 };
int line_clock(int drive);

/*
 * Where the line failed in a run, if it did. In the data phase of SWD_GIVE: what swd_give_rest takes; elsewhere
 * `failed` is 0.
 */
struct line_failure {
	bool has_failed;
	uint64_t bits;
	uint32_t made, failed;
};

/*
 * Does a list of accesses by a run that was made, and stores their answers, for which there is room. Gives the last
 * cue: SWD_REST where the run has ended. Makes no clock after one that fails: the run then ends SWD_LOST.
 */
struct swd_cue line_run(struct swd_run *run, const struct swd_access *accesses, size_t count,
                        struct swd_outcome *answers);

/*
 * The same, and says where the line failed.
 */
struct swd_cue line_try(struct swd_run *run, const struct swd_access *accesses, size_t count,
                        struct swd_outcome *answers, struct line_failure *failure);

/*
 * Does what a cue says, and gives the reply to it, which doesn't count if the line fails inside. Makes no further clock
 * then.
 */
uint64_t line_reply(struct line_failure *failure, const struct swd_cue *cue);

/*
 * Leaves the cue inside which the line failed, before the lead of a run that swd_run_again made: has the target drop
 * the data phase, and releases the line up to the end of an acknowledgement. Gives whether the line didn't fail again;
 * else it is to be called again.
 */
bool line_leave(struct line_failure *failure);

/*
 * Opens a target, and writes and reads back `count` words from `addr`, by a run that was made. Gives whether all were
 * written and are there; says on standard output where not.
 */
bool line_program(struct swd_run *run, uint32_t addr, const uint32_t *words, size_t count);

#endif
