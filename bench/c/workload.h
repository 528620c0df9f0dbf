/* The lists of accesses and the plans of bench/run/workload.rs, the rounds over them, and the sum that they print. */
#ifndef BENCH_WORKLOAD_H
#define BENCH_WORKLOAD_H

#include <stdio.h>
#include "swd.h"
#include "target.h"

#define BASE UINT32_C(0x20000000)
enum { WORDS = 4096, MOST = 65536, MARKS = 120000, ROUNDS = 20, TRIES = 100 };

/* xorshift64* */
static uint32_t random_word(uint64_t *random)
{
	*random ^= *random >> 12;
	*random ^= *random << 25;
	*random ^= *random >> 27;
	return (uint32_t)(*random * UINT64_C(0x2545f4914f6cdd1d) >> 32);
}

/* Reads, and bursts of writes. A few of the addresses are behind the memory. */
static void make_accesses(struct swd_access *accesses, uint64_t random)
{
	uint32_t addr = BASE, burst = 0;
	size_t i;
	for (i = 0; i < MOST; i++) {
		bool write = burst > 0;
		if (write) {
			burst--;
			addr += 4;
		} else {
			addr = BASE + 4 * (random_word(&random) % (WORDS + 8));
			write = random_word(&random) % 2;
			burst = write ? random_word(&random) % 16 : 0;
		}
		accesses[i] = (struct swd_access){ .addr = addr, .word = write ? random_word(&random) : 0, .write = write };
	}
}

static void make_plan(uint8_t *plan, uint64_t *random)
{
	size_t i;
	for (i = 0; i < MARKS; i++) {
		uint32_t choice = random_word(random) % 128;
		plan[i] = choice < 2 ? MARK_WAIT : choice == 2 ? (uint8_t)(random_word(random) % 33) : MARK_CLEAN;
	}
}

/* Does all accesses over a target, and returns the number of requests. */
typedef uint64_t run_list(struct target *t, const struct swd_access *accesses, struct swd_outcome *answers);

/* As the baseline has them. */
static uint64_t number_of(struct swd_outcome answer)
{
	switch (answer.kind) {
	case SWD_VALUE:
		return answer.word;
	case SWD_WRITTEN:
		return UINT64_C(1) << 32;
	case SWD_BUS_FAULT:
		return UINT64_C(2) << 32;
	default:
		abort();
	}
}

/* Twenty rounds, each over a new target with a plan of its own. */
static void run_rounds(run_list *run)
{
	static struct swd_access accesses[MOST];
	static struct swd_outcome answers[MOST];
	static uint8_t plan[MARKS];
	uint64_t random = UINT64_C(0x123456789abcdef1), sum = 0;
	size_t round, i;
	make_accesses(accesses, random);
	for (round = 0; round < ROUNDS; round++) {
		struct target t;
		make_plan(plan, &random);
		target_new(&t, BASE, WORDS, MOST, plan, MARKS);
		sum = sum * 31 + run(&t, accesses, answers);
		for (i = 0; i < MOST; i++)
			sum = sum * 31 + number_of(answers[i]);
		target_free(&t);
	}
	printf("%llu\n", (unsigned long long)sum);
}

#endif
