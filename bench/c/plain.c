/* The baseline: the host of bench/run/host.rs as C, without its blocks. Written for measurements, and proved in
 * nothing. */
#include "workload.h"

/* The requests of the opening and of an access, in order. */
enum place {
	PLACE_IDENTIFY,
	PLACE_WIPE,
	PLACE_INSPECT,
	PLACE_SELECT,
	PLACE_POWER,
	PLACE_POWERED,
	PLACE_CONFIGURE,
	PLACE_RECALL,
	PLACE_CONFIGURED,
	PLACE_AIM,
	PLACE_TRANSFER,
	PLACE_CONFIRM
};

/* Why a request is sent: `owed` are the sticky flags that are to be cleared. */
enum job_kind { JOB_AT, JOB_RESEND, JOB_STATUS, JOB_LAST_STATUS, JOB_CLEAR, JOB_CHECK };

struct flags {
	bool error, damaged;
};

struct job {
	enum job_kind kind;
	enum place place;
	struct flags owed;
};

/* The outcome of the opening, beside those of swd.h. */
enum { OPENED = 1 };

enum state { LEADING, ASKING, MOVING, WAITED, FAULTED, RESTING };

struct engine {
	enum state state;
	struct job job;
	struct swd_outcome outcome;
	struct swd_access access;
	/* The next access confirms this one. */
	bool burst;
	bool aims, tar_known;
	uint32_t tar, tries, events;
	uint64_t requests;
};

static bool in_kilobyte(uint32_t addr)
{
	return addr % 1024 < 1020;
}

/* The request of the burst's next write was sent: it confirmed this one. */
static bool is_ahead(const struct engine *e)
{
	return e->burst && e->state == MOVING && e->job.kind == JOB_AT && e->job.place == PLACE_CONFIRM;
}

static void ask(struct engine *e, enum job_kind kind, enum place place, struct flags owed)
{
	e->job = (struct job){ kind, place, owed };
	e->state = ASKING;
}

static void ask_at(struct engine *e, enum place place)
{
	ask(e, JOB_AT, place, (struct flags){ false, false });
}

static void rest(struct engine *e, uint8_t kind, uint32_t word)
{
	e->outcome = (struct swd_outcome){ .word = word, .kind = kind };
	e->state = RESTING;
}

static void start(struct engine *e, const struct swd_access *access, const struct swd_access *following)
{
	bool ahead = is_ahead(e);
	e->aims = !ahead && !(e->tar_known && e->tar == access->addr);
	e->access = *access;
	e->burst = access->write && following != NULL && following->write && in_kilobyte(access->addr)
	        && following->addr == access->addr + 4;
	e->events = 0;
	ask_at(e, e->aims ? PLACE_AIM : PLACE_TRANSFER);
	if (ahead)
		e->state = MOVING;
}

static uint8_t request_at(const struct engine *e, enum place place)
{
	static const uint8_t requests[] = { DPIDR, ABORT, CTRL_STAT, SELECT, CTRL_STAT_WRITE, CTRL_STAT,
	                                    CSW_WRITE, CSW, RDBUFF, TAR };
	switch (place) {
	case PLACE_TRANSFER:
		return e->access.write ? DRW_WRITE : DRW;
	case PLACE_CONFIRM:
		return e->burst ? DRW_WRITE : RDBUFF;
	default:
		return requests[place];
	}
}

static uint8_t request_of(const struct engine *e)
{
	switch (e->job.kind) {
	case JOB_AT:
		return request_at(e, e->job.place);
	case JOB_RESEND:
		return RESEND;
	case JOB_CLEAR:
		return ABORT;
	default:
		return CTRL_STAT;
	}
}

static uint32_t word_of(const struct engine *e)
{
	if (e->job.kind == JOB_CLEAR)
		return (uint32_t)e->job.owed.error << 2 | (uint32_t)e->job.owed.damaged << 3;
	switch (e->job.place) {
	case PLACE_WIPE:
		return 0x1e;
	case PLACE_POWER:
		return 0x50000000;
	case PLACE_CONFIGURE:
		return 0x23000012;
	case PLACE_AIM:
		return e->access.addr;
	case PLACE_TRANSFER:
		return e->access.word;
	default:
		return 0;
	}
}

static void seen(struct engine *e, unsigned ack)
{
	e->requests++;
	switch (ack) {
	case ACK_OK:
		e->state = MOVING;
		break;
	case ACK_WAIT:
		e->state = WAITED;
		break;
	case ACK_FAULT:
		e->state = FAULTED;
		break;
	default:
		rest(e, SWD_LOST, 0);
		break;
	}
}

/* An event leads to this request, if there may be one more. */
static void event(struct engine *e, struct job job)
{
	if (e->events >= e->tries) {
		rest(e, SWD_TRIES_OUT, 0);
		return;
	}
	e->events++;
	e->job = job;
	e->state = ASKING;
}

static void answer(struct engine *e, uint8_t kind, uint32_t word)
{
	e->tar_known = kind != SWD_BUS_FAULT && in_kilobyte(e->access.addr);
	e->tar = e->access.addr + 4;
	rest(e, kind, word);
}

/* After the data of a write. */
static void sent(struct engine *e)
{
	if (e->job.kind == JOB_CLEAR)
		ask(e, JOB_CHECK, e->job.place, e->job.owed);
	else
		ask_at(e, e->job.place + 1);
}

/* The place of the write that this one confirms, or itself where there is none. */
static enum place confirms(const struct engine *e, enum place place)
{
	switch (place) {
	case PLACE_INSPECT:
	case PLACE_POWER:
	case PLACE_POWERED:
	case PLACE_RECALL:
		return place - 1;
	case PLACE_TRANSFER:
		return e->aims ? PLACE_AIM : place;
	case PLACE_CONFIRM:
		return e->access.write ? PLACE_TRANSFER : place;
	default:
		return place;
	}
}

static void value_at(struct engine *e, enum place place, uint32_t word, struct flags flags)
{
	struct job again = { JOB_AT, place, { false, false } };
	switch (place) {
	case PLACE_IDENTIFY:
		if (word % 2 == 0)
			rest(e, SWD_WRONG_ID, word);
		else
			ask_at(e, PLACE_WIPE);
		return;
	case PLACE_INSPECT:
		again.place = PLACE_WIPE;
		if (flags.error || flags.damaged)
			event(e, again);
		else
			ask_at(e, PLACE_SELECT);
		return;
	case PLACE_POWERED:
		if (flags.error) {
			rest(e, SWD_CONFUSED, 0);
		} else if (flags.damaged) {
			event(e, (struct job){ JOB_CLEAR, place, flags });
		} else if ((word & 0xa0000000) == 0xa0000000) {
			ask_at(e, PLACE_CONFIGURE);
		} else {
			event(e, again);
		}
		return;
	case PLACE_CONFIGURED:
		e->tar_known = false;
		rest(e, (word & 0x77) == 0x52 ? OPENED : SWD_CONFUSED, 0);
		return;
	case PLACE_CONFIRM:
		answer(e, SWD_VALUE, word);
		return;
	default:
		rest(e, SWD_CONFUSED, 0);
		return;
	}
}

static void status(struct engine *e, enum place place, struct flags flags)
{
	if (!flags.error && flags.damaged && confirms(e, place) != place)
		event(e, (struct job){ JOB_CLEAR, place, flags });
	else if (flags.error && !flags.damaged && place == PLACE_CONFIRM)
		ask(e, JOB_CLEAR, place, flags);
	else
		rest(e, SWD_CONFUSED, 0);
}

static void check(struct engine *e, struct flags now)
{
	enum place place = e->job.place;
	struct flags owed = e->job.owed;
	if (!now.error && !now.damaged) {
		if (owed.error && place == PLACE_CONFIRM)
			answer(e, SWD_BUS_FAULT, 0);
		else
			ask_at(e, confirms(e, place));
	} else if (now.damaged && now.error == owed.error) {
		event(e, (struct job){ JOB_CLEAR, place, now });
	} else {
		rest(e, SWD_CONFUSED, 0);
	}
}

/* After a read's data that arrived changed. */
static void garbled(struct engine *e)
{
	struct job job = e->job;
	if (job.kind == JOB_AT && (job.place == PLACE_CONFIGURED || job.place == PLACE_CONFIRM))
		job.kind = JOB_RESEND;
	event(e, job);
}

/* After the data of a read. */
static void taken(struct engine *e, uint64_t bits)
{
	uint32_t word = (uint32_t)bits;
	struct flags flags = { word >> 5 & 1, word >> 7 & 1 };
	if (e->job.kind == JOB_AT && (e->job.place == PLACE_RECALL || e->job.place == PLACE_TRANSFER)) {
		ask_at(e, e->job.place + 1);
	} else if (e->job.kind == JOB_AT && e->job.place == PLACE_CONFIRM && e->access.write) {
		answer(e, SWD_WRITTEN, 0);
	} else if (parity(bits)) {
		garbled(e);
	} else {
		switch (e->job.kind) {
		case JOB_AT:
		case JOB_RESEND:
			value_at(e, e->job.place, word, flags);
			break;
		case JOB_STATUS:
			status(e, e->job.place, flags);
			break;
		case JOB_CHECK:
			check(e, flags);
			break;
		default:
			rest(e, SWD_CONFUSED, 0);
			break;
		}
	}
}

/* After the turnaround behind a FAULT. */
static void faulted(struct engine *e)
{
	ask(e, e->job.kind == JOB_AT ? JOB_STATUS : JOB_LAST_STATUS, e->job.place, e->job.owed);
}

/* Goes on to the next outcome. */
static void drive(struct target *t, struct engine *e)
{
	while (e->state != RESTING && !is_ahead(e)) {
		switch (e->state) {
		case LEADING:
			target_lead(t, 56);
			ask_at(e, PLACE_IDENTIFY);
			break;
		case ASKING:
			seen(e, target_ask(t, request_of(e)));
			break;
		case MOVING:
			if (is_read(request_of(e))) {
				taken(e, target_take(t));
			} else {
				target_give(t, data_phase(word_of(e)));
				sent(e);
			}
			break;
		case WAITED:
			event(e, e->job);
			break;
		default:
			faulted(e);
			break;
		}
	}
	if (e->state != RESTING)
		e->outcome = (struct swd_outcome){ .word = 0, .kind = SWD_WRITTEN };
}

static uint64_t run(struct target *t, const struct swd_access *accesses, struct swd_outcome *answers)
{
	struct engine e = { .state = LEADING, .aims = true, .tries = TRIES };
	size_t i;
	drive(t, &e);
	for (i = 0; i < MOST && e.outcome.kind < SWD_ALL; i++) {
		start(&e, &accesses[i], i + 1 < MOST ? &accesses[i + 1] : NULL);
		drive(t, &e);
		answers[i] = e.outcome;
	}
	target_lead(t, 0);
	return e.requests;
}

int main(void)
{
	run_rounds(run);
	return 0;
}
