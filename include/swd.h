/*
 * swd.h - a Serial Wire Debug host, a simulated target, a trace decoder and a checker of traces, for C99 and C++.
 *
 * The functions are those of the crate swd_c, which is proved. docs/C.md says how to build the archive
 * libswd_c.a, what is proved of these calls, and what a caller must do.
 *
 * All state is in the caller's memory. No function keeps a pointer, calls back, allocates, waits or fails to
 * return, and none has state of its own. Calls on different structs are independent. One struct is used by one
 * call at a time. A struct may be copied as a whole, and may contain any bytes: a function refuses invalid
 * contents and leaves the struct unchanged.
 *
 * The line has a pull-up: where nobody drives it, it reads 1.
 *
 * Each pointer must point to a whole object of its type. An object that a function writes must not overlap
 * another argument. `accesses` must have at least `count` objects, and `answers` `room`.
 *
 * Bits in a number are in time order, the first in time least significant. Addresses are in bytes. Flags
 * are 0 or 1.
 */
#ifndef SWD_H
#define SWD_H

#include <stdbool.h>
#include <stddef.h>
#include <stdint.h>

/*
 * Behind the functions that may refuse a call, whose result says whether they did: gcc and clang warn where it is
 * ignored.
 */
#ifdef __GNUC__
#define SWD_CHECKED __attribute__((warn_unused_result))
#else
#define SWD_CHECKED
#endif

#ifdef __cplusplus
extern "C" {
#endif

/* The version of library, header and program; and as a number, with major, minor and patch in a byte each. */
#define SWD_VERSION "0.1.0"
#define SWD_VERSION_NUMBER 0x000100

/*
 * Set in swd_version() of a library that `./swd --library` compiled without a proof. Clear in a proved one.
 */
#define SWD_UNPROVED 0x80000000

/*
 * Returns SWD_VERSION_NUMBER of the library that is linked, with SWD_UNPROVED where that isn't proved.
 */
uint32_t swd_version(void);

/* ----------------------------------------------------------------------------- outcomes and cues ---- */

/*
 * The outcome of an access or a run.
 */
struct swd_outcome {
	uint32_t word; /* of SWD_VALUE and SWD_WRONG_ID, else 0 */
	uint8_t kind;
};

enum {
	SWD_VALUE = 2, /* the access read `word` */
	SWD_WRITTEN = 3, /* the access wrote its word */
	SWD_BUS_FAULT = 4, /* the access was a bus error: the bus refused it */
	/* From here on the end of a run. */
	SWD_ALL = 5, /* every access of the list is answered */
	SWD_LOST = 6, /* no acknowledgement was seen, or the line failed: send nothing more, except by swd_run_again */
	SWD_TRIES_OUT = 7, /* the opening or an access met more than `tries` events: see swd_run_new */
	SWD_WRONG_ID = 8, /* bit 0 of DPIDR isn't 1; `word` is DPIDR */
	SWD_CONFUSED = 9 /* the target violated the protocol */
};

/*
 * What has to be sent next. Fields that a kind doesn't name are 0.
 */
struct swd_cue {
	uint64_t bits; /* of SWD_GIVE: the 33 bits of the data phase */
	uint32_t ones; /* of SWD_LEAD: the number of ones */
	uint32_t zeros; /* of SWD_LEAD: the number of zeros after them */
	uint32_t undriven; /* of SWD_LEAD: for how many of the first ones to release the line */
	struct swd_outcome outcome; /* of SWD_REST: the outcome */
	uint8_t kind;
	uint8_t request; /* of SWD_ASK: the eight bits of the request */
	uint8_t with_switch; /* of SWD_LEAD: whether the switch and the ones again precede the zeros */
	uint8_t begun; /* of any kind: number of accesses in flight: DRW request sent, no answer yet */
};

enum {
	SWD_REST = 0, /* nothing: see `outcome` */
	SWD_LEAD = 1, /* `ones` ones; with_switch: SWD_SWITCH_BITS and the ones again; `zeros` zeros */
	SWD_ASK = 2, /* send eight bits and a turnaround; sample three bits, which are the reply */
	SWD_TAKE = 3, /* sample 33 bits, which are the reply; then a turnaround */
	SWD_GIVE = 4, /* a turnaround; then send 33 bits */
	SWD_PASS = 5, /* a turnaround */
	/* The call was refused; of swd_run_next, swd_run_opened and swd_run_fail `outcome` says why, below. *run is
	   unchanged: it still says how the run before ended. */
	SWD_REFUSED = 255
};

/* The sixteen bits that switch from JTAG to serial wire. */
#define SWD_SWITCH_BITS 0xe79e

/*
 * An access: reads or writes the word at an address, which is a multiple of 4.
 */
struct swd_access {
	uint32_t addr;
	uint32_t word; /* the word to write; ignored for a read */
	uint8_t write; /* 0 for a read, any other value for a write */
};

/*
 * A part of struct swd_run, private to the library.
 */
struct swd_engine {
	uint64_t requests;
	struct {
		struct swd_outcome outcome;
		struct {
			uint8_t kind, place, error, damaged;
		} job;
		uint8_t kind, phase;
	} state;
	struct {
		uint32_t addr, word;
		uint8_t kind;
	} task;
	struct {
		uint32_t word;
		uint8_t known;
	} tar;
	uint32_t tries, events;
	uint8_t aims, bursts, ahead, begun, stray;
};

/*
 * A host without a wire, over a list of accesses: it says what to send next, and takes what was seen. `requests`, `end`,
 * `answered` and `begun` are for the caller; the other fields are private to the library. A struct of zeros is invalid.
 *
 *	struct swd_run run;
 *	swd_run_new(&run, 8);
 *	struct swd_cue cue = swd_run_cue(&run);
 *	while (cue.kind != SWD_REST && cue.kind != SWD_REFUSED)
 *		cue = swd_run_next(&run, accesses, count, answers, count, reply(&cue));
 */
struct swd_run {
	uint64_t requests; /* number of requests sent; may be read */
	struct swd_engine engine;
	struct swd_outcome end; /* how the run ended, SWD_ALL to SWD_CONFUSED; of kind 0 as long as it goes on; may be read */
	uint32_t answered; /* number of accesses answered; may be read */
	uint8_t begun; /* number of accesses in flight: DRW request sent, no answer yet; may be read */
	uint8_t stage;
};

/*
 * Why swd_run_next, swd_run_opened or swd_run_fail refuses a call, as the `outcome.kind` of its cue.
 */
enum {
	SWD_INVALID = 0, /* *run is invalid */
	SWD_ENDED = 1, /* the run has ended */
	SWD_BAD_REPLY = 2, /* `reply` isn't below 8 at SWD_ASK, or below 2^33 at SWD_TAKE */
	SWD_TOO_MANY = 3, /* more than 65,536 accesses */
	SWD_UNALIGNED = 4, /* an address isn't a multiple of 4; `outcome.word` is the index of the first such access */
	SWD_TOO_FEW = 5, /* fewer accesses than are answered */
	SWD_NO_ROOM = 6 /* room for fewer answers than there are accesses */
};

/*
 * Makes a run at its beginning. It opens a target: a line reset with the switch, DPIDR, power, and a MEM-AP set up for
 * words. Then it does the accesses in order, each once, and sends eight idle cycles. The opening, and each access, may
 * meet `tries` events, such as a WAIT, a read word with wrong parity, or write data that was corrupted; at one more it
 * ends with SWD_TRIES_OUT. At a target that conforms to the model and was at rest, retries make no access take effect
 * twice (docs/C.md has the theorem). Whatever the replies, the run ends, and has then sent at most 10 + 5 * tries requests, and
 * 6 + 5 * tries for each access.
 */
void swd_run_new(struct swd_run *run, uint32_t tries);

/*
 * Makes the same run for a block of reads at consecutive addresses: the request for the next word returns the word
 * before it, so that a word takes one request. Each write is confirmed by a read of RDBUFF. A run of swd_run_new has bursts
 * of writes: the request of the next write, to the next word's address in the same kilobyte, confirms the one before. A
 * debug port with a write buffer may discard a write that was confirmed so, and `answers` may then be wrong: make this run
 * unless you know that the port has none (docs/C.md, 'Bursts').
 */
void swd_run_blocks(struct swd_run *run, uint32_t tries);

/*
 * Makes a run over a target that is open already, and returns its first cue, as swd_run_cue does. It sends no opening: a
 * list of one read costs three requests. `blocks` isn't 0 for bursts of reads, as of swd_run_blocks, and 0 for bursts of
 * writes. Pass the same list to swd_run_next.
 *
 * A target is open after a run, of whatever kind, that ended SWD_ALL, as long as nothing else drives the line and the
 * target isn't reset. The library can't check that. If it doesn't hold, the answers and the end of this run, and of
 * those behind it, may be wrong; whatever holds, each call is safe, is refused as said here, and the run ends. After an
 * end other than SWD_ALL continue with swd_run_again, or open the target anew.
 *
 * SWD_REFUSED: the list isn't valid, with SWD_TOO_MANY or SWD_UNALIGNED in `outcome`. *run is unchanged: it still says
 * how the run before ended.
 */
struct swd_cue swd_run_opened(struct swd_run *run, const struct swd_access *accesses, size_t count, uint8_t blocks,
                              uint32_t tries) SWD_CHECKED;

/*
 * Makes the run that continues after one that ended SWD_LOST or SWD_TRIES_OUT, over the same target and the same list,
 * with the first access that isn't answered. `answered` goes on from there; `requests` and `begun` are those of the new
 * run alone, whose opening may take five requests more. An access that was in flight may take effect again. It has
 * bursts of writes if the run before it had, and no bursts of reads: the rest of a block is read one by one.
 *
 * If the line failed inside a cue (swd_run_fail), the target may be at a turnaround or inside an acknowledgement, and
 * then drives for up to four clocks more than the lead of the new run releases: release the line for four clocks before
 * that lead. If it failed inside the 33 bits of SWD_GIVE, drive the bits of swd_give_rest before the four clocks, or the
 * target may write another word.
 *
 * Returns false: *run is invalid, or didn't end so.
 */
bool swd_run_again(struct swd_run *run, uint32_t tries) SWD_CHECKED;

/*
 * Returns the bits that end a data phase inside which the line failed, so that the target drops it: `33 - made` of them.
 * `bits` are those of SWD_GIVE, and `made` of them were driven in clocks that were certainly made. `failed` is 1: the
 * clock of the next bit was made or wasn't. In either case the parity of what the target takes is wrong, unless it had
 * taken all 33 bits before.
 *
 * If the line fails again, inside these bits and after `more` of them: put them in place of `bits` from bit `made` on,
 * add `more` to `made` and 1 to `failed`, and call it again. That holds unless the clock of the bit failed by which the
 * parity is made wrong: the last one that the target takes in any case.
 */
uint64_t swd_give_rest(uint64_t bits, uint32_t made, uint32_t failed);

/*
 * Returns what has to be sent next. SWD_REST: the run has ended; `outcome` is `end`. SWD_REFUSED: *run is invalid, or has
 * more than 65,536 answers.
 */
struct swd_cue swd_run_cue(const struct swd_run *run);

/*
 * A transaction that comes next.
 */
struct swd_planned {
	uint32_t word; /* the word that a write sends; 0 for a read */
	uint8_t request; /* the eight bits of the request, with the fields of SWD_REQUEST_AP and the others */
};

/* The most transactions of a plan. */
#define SWD_MOST_PLANNED 128

/*
 * Plans ahead: stores the transactions that come next in `plan`, which has `room` objects, and returns how many, at most
 * SWD_MOST_PLANNED. As long as each is acknowledged with OK, and each word arrives with correct parity, the run asks for
 * exactly these, whatever words are read. A plan ends behind a read whose word decides what follows, of DPIDR, CTRL/STAT or
 * CSW, and behind the last access. Nothing of the run changes. Pass the same list as to swd_run_next.
 *
 * Returns 0 where the cue isn't SWD_ASK, and if *run is invalid, or has more than 65,536 answers. *plan is unchanged then.
 */
uint32_t swd_run_plan(const struct swd_run *run, const struct swd_access *accesses, size_t count,
                      struct swd_planned *plan, size_t room);

/*
 * Takes the reply to the cue, and returns the next cue. `reply` is the three bits sampled at SWD_ASK (an undriven line
 * reads 1), or the 33 bits sampled at SWD_TAKE; at any other kind it is ignored. If the line failed inside the cue, call
 * swd_run_fail in place of this: bits that were sampled before and after a failure may pass for a word. The answer of each
 * access that ended, SWD_VALUE, SWD_WRITTEN or SWD_BUS_FAULT, is written to `answers`, which has `room` objects, at the
 * access's index. In each call `accesses` must be the same list of `count`. The call at the first cue checks all of it (of
 * swd_run_opened, that call), each later one only `count`.
 *
 * SWD_REFUSED: for one of the reasons above, in `outcome`. *run and the answers are unchanged.
 */
struct swd_cue swd_run_next(struct swd_run *run, const struct swd_access *accesses, size_t count,
                            struct swd_outcome *answers, size_t room, uint64_t reply) SWD_CHECKED;

/*
 * Ends the run, since the line failed inside its cue, and returns the last cue: SWD_REST, with the outcome SWD_LOST. The
 * answers so far stand, and `begun` says whether an access is in flight. If the cue was SWD_ASK, its request counts as
 * sent, since the target may have seen it. Make no further clock in this run; swd_run_again says how to continue.
 *
 * SWD_REFUSED: *run is invalid, or has ended (SWD_INVALID or SWD_ENDED in `outcome`). *run is unchanged.
 */
struct swd_cue swd_run_fail(struct swd_run *run) SWD_CHECKED;

/*
 * The name of an outcome, for messages: "value", or as a report of the program says it, "lost".
 */
static inline const char *swd_outcome_name(uint8_t kind)
{
	static const char *const names[] = { "none", "unknown", "value", "written", "bus error",
	                                     "all", "lost", "tries", "id", "confused" };
	return kind < sizeof names / sizeof *names ? names[kind] : "unknown";
}

/*
 * The name of a reason why swd_run_next, swd_run_opened or swd_run_fail refuses a call.
 */
static inline const char *swd_refusal_name(uint8_t kind)
{
	static const char *const names[] = { "invalid run", "ended", "bad reply", "too many accesses",
	                                     "unaligned address", "too few accesses", "no room for the answers" };
	return kind < sizeof names / sizeof *names ? names[kind] : "unknown";
}

/* ---------------------------------------------------------------------------------------- the target ---- */

/*
 * A simulated target, clock by clock: a debug port with a MEM-AP for words. It has no memory: the caller makes
 * its transfers, on any bus, and they are never undone. Only `cycles` is for the caller; the other fields are
 * private to the library. A struct of zeros is invalid.
 */
struct swd_target {
	uint64_t cycles; /* number of cycles made; may be read */
	struct {
		struct {
			uint64_t bits;
			uint8_t kind, reg, flips, flip;
		} line;
		uint8_t kind, place, byte, reply;
	} frame;
	struct {
		struct swd_content {
			uint32_t word;
			uint8_t known;
		} tar, buffer, last_returned;
		struct {
			uint32_t word;
			uint8_t kind;
		} pending;
		uint32_t filler;
		uint8_t wrap, late, reset, sticky_error, write_error, read_ok, debug_power, system_power, power_up;
		uint8_t apsel, apbanksel, dpbanksel, increments, csw_upper;
	} target;
	uint8_t waits;
};

/*
 * A transfer on the target's bus. Fields that a kind doesn't name are 0.
 */
struct swd_transfer {
	uint32_t addr; /* the value of TAR; need not be a multiple of 4 */
	uint32_t word; /* of SWD_WRITE: the word to write */
	uint8_t kind;
};

enum {
	SWD_NONE = 0,
	SWD_READ = 1,
	SWD_WRITE = 2
};

/* The host doesn't drive the line in this cycle. */
#define SWD_RELEASED 2

/* Returned in place of a bit: make the pending transfer, then call again. */
#define SWD_WANTS 2

/*
 * Makes a target that had no line reset yet; its DPIDR is 2ba01477. `wraps` selects whether TAR wraps at the end
 * of a kilobyte or increments past it. `filler` is returned by a read whose value is unknown.
 */
void swd_target_new(struct swd_target *target, uint8_t wraps, uint32_t filler);

/*
 * Makes one clock. `drive` is the host's bit, or SWD_RELEASED. Returns the bit on the line: the target's if it
 * drives, else the host's, and 1 if nobody drives.
 *
 * An accepted read or write of DRW leaves a transfer pending, which swd_target_wants returns from then on. Make it
 * at any time up to the next OK or FAULT. A cycle that needs it first isn't made and returns SWD_WANTS; call it
 * again after swd_target_settle. So make a transfer as soon as it is wanted, or when SWD_WANTS is returned. If the
 * bus is slow, hold the target until the transfer is made.
 *
 * SWD_REFUSED: *target is invalid, or `drive` is above 2.
 */
uint8_t swd_target_cycle(struct swd_target *target, uint8_t drive);

/*
 * Returns the pending transfer, or SWD_NONE. Meaningless for an invalid struct.
 */
struct swd_transfer swd_target_wants(const struct swd_target *target);

/*
 * Takes the result of the pending transfer: SWD_VALUE with the word, SWD_WRITTEN, or SWD_BUS_FAULT. The
 * target continues as over a memory that gave this result.
 *
 * Returns false: *target is invalid; nothing is pending; or a read, or a write, can't have this result.
 */
bool swd_target_settle(struct swd_target *target, uint8_t kind, uint32_t word) SWD_CHECKED;

/*
 * Makes the target busy, or ends that. While it is busy, a request that may get WAIT gets it in place of OK. A
 * read of CTRL/STAT then shows no power-up acknowledgement that none showed before.
 *
 * Returns false: *target is invalid.
 */
bool swd_target_hold(struct swd_target *target, uint8_t wait) SWD_CHECKED;

/* --------------------------------------------------------------------------------------- the decoder ---- */

/*
 * A decoder of a trace. Only `fed` is for the caller; the other fields are private to the library. A struct of
 * zeros is invalid.
 */
struct swd_decoder {
	uint64_t fed; /* number of bits taken; may be read */
	uint64_t run, bits;
	uint8_t mode, one, len;
};

/*
 * One item of a trace. Fields that a kind doesn't name are 0.
 */
struct swd_item {
	uint64_t count; /* of SWD_RESET, SWD_IDLE and SWD_CUT: the number of bits */
	uint64_t bits; /* of SWD_JUNK and SWD_CUT: the bits */
	uint32_t word; /* of SWD_TRANSACTION with `ack` 1: the word */
	uint8_t kind;
	uint8_t request; /* of SWD_TRANSACTION: the eight bits of the request */
	uint8_t ack; /* of SWD_TRANSACTION: the three bits seen: 1 OK, 2 WAIT, 4 FAULT, else no ACK */
	uint8_t parity_ok; /* of SWD_TRANSACTION with `ack` 1: whether the word's parity is correct */
};

enum {
	SWD_RESET = 1, /* a line reset: `count` ones, at least 50 */
	SWD_SWITCH = 2, /* the sixteen bits of the switch, directly after a line reset */
	SWD_IDLE = 3, /* `count` zeros */
	SWD_TRANSACTION = 4,
	SWD_JUNK = 5, /* one bit that belongs to no other item */
	SWD_CUT = 6 /* the end of the trace in fewer than 50 ones or a transaction: 1 to 49 bits */
};

/*
 * The fields of a request's eight bits: whether it goes to the access port, whether it is a read, and the
 * register's address, which is 0, 4, 8 or 12.
 */
#define SWD_REQUEST_AP(request) (((request) >> 1) & 1)
#define SWD_REQUEST_READ(request) (((request) >> 2) & 1)
#define SWD_REQUEST_ADDR(request) ((((request) >> 3) & 3) << 2)

/*
 * Makes a decoder that has taken no bit.
 */
void swd_decoder_new(struct swd_decoder *decoder);

/*
 * Takes one or more of the lowest `count` bits, from the least significant up, and returns how many. How a trace
 * is split into calls doesn't change its items.
 *
 * Returns 0: *decoder is invalid; an item is due; `count` is 0 or above 64; or `fed` + `count` is above 2^64 - 1.
 */
uint8_t swd_decoder_take(struct swd_decoder *decoder, uint64_t bits, uint8_t count) SWD_CHECKED;

/*
 * Writes the next item that no later bits can change. Call it until it returns false, before more bits are
 * taken.
 *
 * Returns false, and leaves *item unchanged: no item is due, or *decoder is invalid.
 */
bool swd_decoder_due(struct swd_decoder *decoder, struct swd_item *item) SWD_CHECKED;

/*
 * Writes the next item if the trace ends here. All items together are the reading of all bits.
 *
 * Returns false, and leaves *item unchanged: no item is left, or *decoder is invalid.
 */
bool swd_decoder_last(struct swd_decoder *decoder, struct swd_item *item) SWD_CHECKED;

/* --------------------------------------------------------------------------------------- the checker ---- */

/*
 * A checker of a trace: whether a target that conforms to the port model may show its items, or the first item that
 * none may show, with the rule that it breaks. docs/CONFORMANCE.md says what a verdict says, and what it doesn't. All
 * fields are private to the library. A struct of zeros is invalid. It has 4,168 bytes. A call needs far more than that on
 * the stack: some 115 kB on x86-64, 75 kB on a Cortex-M (examples/cortex-m/README.md).
 *
 *	struct swd_check check;
 *	bool taken = swd_check_new(&check, SWD_MADE, 1);
 *	while (taken && next_item(&item, &place))
 *		taken = swd_check_watch(&check, &item, place);
 *	if (!taken || !swd_check_verdict(&check, &verdict))
 *		return false;
 */
struct swd_held {
	uint64_t places;
	uint32_t word;
	uint8_t kind;
};

struct swd_world {
	uint64_t faults;
	struct swd_held buffer, last_returned;
	struct {
		uint32_t first;
		uint8_t more, known;
	} tar;
	uint8_t reset, sticky_error, write_error, read_ok, debug, system, mem_ap, bank0, increments, pending, awaits;
};

struct swd_check {
	struct swd_world worlds[64];
	struct swd_held identification;
	uint64_t began, faults_before, gaps, broken, crowded;
	uint32_t select;
	uint8_t count, overfull, opening, clean, has_began, in_gap, stray, rule, is_crowded;
};

/*
 * The state of the target before the first item.
 */
enum {
	SWD_MADE = 1, /* its reset state: no line reset yet, each register 0 */
	SWD_AT_REST = 2, /* SELECT is 0, no transfer is in progress, and no data phase is due, as after a reset of its power */
	SWD_ANY = 3 /* no data phase is due */
};

/*
 * What the items so far show.
 */
struct swd_verdict {
	uint64_t place; /* of SWD_BREAKS and SWD_CROWDED: the number of bits before the item, as it was passed; else 0 */
	uint64_t began; /* the place of the first item that was checked, if `has_began`; else 0 */
	uint64_t faults; /* how many requests were damaged or lost at least */
	uint64_t gaps; /* how many times stray bits hid what came before a line reset */
	uint8_t kind;
	uint8_t rule; /* of SWD_BREAKS: the rule, for swd_rule_name; else 0 */
	uint8_t has_began;
};

enum {
	SWD_FITS = 1, /* some run of the model explains the items */
	SWD_BREAKS = 2, /* none explains the items up to the one at `place` */
	SWD_CROWDED = 3 /* not decided from `place` on: more states of the target are possible than the struct holds */
};

/*
 * Makes a checker that has watched no item. `clean` isn't 0 if nothing is damaged or lost on the line, as in a
 * simulation.
 *
 * Returns false: `start` is none of the three.
 */
bool swd_check_new(struct swd_check *check, uint8_t start, uint8_t clean) SWD_CHECKED;

/*
 * Takes the next item. `place` is the number of bits before it, and is used in the verdict alone. After SWD_BREAKS it
 * does nothing.
 *
 * Returns false: *check is invalid; or *item is no item: a kind that there isn't, a field that isn't 0 where the kind
 * doesn't name it, eight bits that are no request, an `ack` above 7, or more than 49 bits of SWD_CUT.
 */
bool swd_check_watch(struct swd_check *check, const struct swd_item *item, uint64_t place) SWD_CHECKED;

/*
 * Writes what the items so far show.
 *
 * Returns false, and leaves *verdict unchanged: *check is invalid.
 */
bool swd_check_verdict(const struct swd_check *check, struct swd_verdict *verdict) SWD_CHECKED;

/*
 * A rule in the words of the standard, as `swd check` prints it.
 */
static inline const char *swd_rule_name(uint8_t rule)
{
	static const char *const names[] = {
		"none",
		"after a line reset only a read of DPIDR is answered",
		"each request is acknowledged",
		"reads of DPIDR and CTRL/STAT and writes of ABORT get neither WAIT nor FAULT",
		"FAULT is answered while a sticky flag is set, and not else",
		"an access port without debug power answers FAULT",
		"FAULT takes precedence over WAIT",
		"a posted read returns the result of the read before it",
		"RESEND returns the last returned value again",
		"CTRL/STAT shows the flags and the powers",
		"DPIDR reads the same word each time, and its bit 0 is 1",
		"the parity of a word is even",
	};
	return rule < sizeof names / sizeof *names ? names[rule] : "unknown";
}

/* ---------------------------------------------------------------------------------------- the header ---- */

/*
 * Each struct above, with a different number in each field: 1, 2 and so on in the order of the fields, times
 * 0x01 in one byte, 0x01010101 in four, 0x0101010101010101 in eight. And the sizes that the structs have in the
 * library. examples/c/layout.c checks this header by it.
 */
struct swd_layout {
	struct swd_engine engine;
	struct swd_cue cue;
	struct swd_access access;
	struct swd_decoder decoder;
	struct swd_item item;
	struct swd_target target;
	struct swd_transfer transfer;
	uint64_t engine_size, cue_size, access_size, decoder_size, item_size, target_size, transfer_size, layout_size;
};

void swd_layout(struct swd_layout *layout);

/*
 * The same for struct swd_run, with the numbers from 22 on behind those of its engine.
 */
struct swd_run_layout {
	struct swd_run run;
	uint64_t run_size, layout_size;
};

void swd_run_layout(struct swd_run_layout *layout);

/*
 * The same for struct swd_planned, with the numbers from 1 on.
 */
struct swd_plan_layout {
	struct swd_planned planned;
	uint64_t planned_size, layout_size;
};

void swd_plan_layout(struct swd_plan_layout *layout);

/*
 * The same for the structs of the checker, with the numbers from 1 on. Each of the worlds of `check` is `world`.
 */
struct swd_check_layout {
	struct swd_world world;
	struct swd_check check;
	struct swd_verdict verdict;
	uint64_t world_size, check_size, verdict_size, layout_size;
};

void swd_check_layout(struct swd_check_layout *layout);

#ifdef __cplusplus
}
#endif

#endif
