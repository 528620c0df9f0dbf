// The chip as Verilator builds it, at the other end of the C library's host: writes words, reads them back, and reads
// where there is no memory. Its arguments are those of bench.v. The status is 1 if an answer is wrong.
#include <cstdio>
#include "Vbench.h"
#include "verilated.h"
#include "line.h"

static Vbench *chip;

// One clock: the host's bit is set while SWCLK is low, and the line sampled before the rising edge.
int line_clock(int drive)
{
	chip->swclk = 0;
	chip->drives = drive != RELEASED;
	chip->data = drive == 1;
	chip->eval();
	int level = chip->level;
	chip->swclk = 1;
	chip->eval();
	return level;
}

int main(int count, char **words)
{
	const uint32_t base = 0x20000000, hole = 0x30000000;
	const size_t image = 64;
	struct swd_access accesses[2 * image + 1];
	struct swd_outcome answers[2 * image + 1];
	struct swd_run run;
	bool good = true;

	Verilated::commandArgs(count, words);
	Vbench bench;
	chip = &bench;
	for (size_t i = 0; i < image; i++) {
		uint32_t address = base + 4 * uint32_t(i);
		accesses[i] = { address, 0x9e3779b9 * uint32_t(i + 1), 1 };
		accesses[image + i] = { address, 0, 0 };
	}
	accesses[2 * image] = { hole, 0, 0 };

	swd_run_new(&run, 50);
	line_run(&run, accesses, 2 * image + 1, answers);
	for (size_t i = 0; i < run.answered; i++) {
		uint8_t kind = i < image ? SWD_WRITTEN : i < 2 * image ? SWD_VALUE : SWD_BUS_FAULT;
		if (answers[i].kind != kind || (kind == SWD_VALUE && answers[i].word != accesses[i - image].word)) {
			std::printf("%08x: %s %08x\n", accesses[i].addr, swd_outcome_name(answers[i].kind), answers[i].word);
			good = false;
		}
	}
	std::printf("%s: %u accesses answered, %u in flight, %llu requests\n", swd_outcome_name(run.end.kind),
	            run.answered, run.begun, (unsigned long long)run.requests);
	bench.final();
	return good && run.end.kind == SWD_ALL ? 0 : 1;
}
