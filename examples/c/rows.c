/*
 * Runs each row of a file of worked runs over the library's target: crates/swd_rows_tests/data/rows.txt, whose head
 * says what its lines mean. A row's plan is met cue by cue, and what goes over the wire is not compared. Takes the
 * file's name; prints what came of a row where that isn't what it says.
 */
#include <stdarg.h>
#include <stdio.h>
#include <stdlib.h>
#include <string.h>
#include "line.h"

enum { BASE = 0x20000000, MOST = 1024, MOST_MARKS = 64, MOST_ACCESSES = 16, LINE = 128, TEXT = 8192 };

struct mark {
	unsigned request, place;
	char kind; /* the first letter of its name */
};

struct row {
	char lines[MOST_MARKS][LINE];
	size_t count;
	struct mark marks[MOST_MARKS];
	struct swd_access accesses[MOST_ACCESSES];
	size_t mark_count, access_count;
	unsigned words, room, tries;
	bool is_late, is_block;
	char bursts; /* 'w', 'r', 'n', or 0 for any */
};

static struct row row;
static struct swd_target target;
static uint32_t memory[MOST];
static unsigned logged, asked, started;
static char came[TEXT], wanted[TEXT], logs[TEXT];

/* Adds to one of these texts. */
static void say(char *text, const char *form, ...)
{
	size_t length = strlen(text);
	va_list words;
	va_start(words, form);
	vsnprintf(text + length, TEXT - length, form, words);
	va_end(words);
}

/* Makes the transfer that the target wants. */
static bool transfer(void)
{
	struct swd_transfer wanted = swd_target_wants(&target);
	uint32_t place = (wanted.addr - BASE) / 4;
	if (wanted.addr < BASE || place >= row.words || logged >= row.room)
		return swd_target_settle(&target, SWD_BUS_FAULT, 0);
	logged++;
	if (wanted.kind == SWD_WRITE)
		memory[place] = wanted.word;
	say(logs, "log %c %08lx %08lx\n", wanted.kind == SWD_WRITE ? 'w' : 'r', (unsigned long)wanted.addr,
	    (unsigned long)memory[place]);
	return swd_target_settle(&target, wanted.kind == SWD_WRITE ? SWD_WRITTEN : SWD_VALUE, memory[place]);
}

int line_clock(int drive)
{
	uint8_t bit = drive < 0 ? (uint8_t)SWD_RELEASED : (uint8_t)drive, line = swd_target_cycle(&target, bit);
	if (line == SWD_WANTS && transfer())
		line = swd_target_cycle(&target, bit);
	/* Each transfer is made at once. */
	if (line > 1 || (swd_target_wants(&target).kind != SWD_NONE && !transfer()))
		return LINE_FAILED;
	return line;
}

/* The mark of a request, `.` for none. */
static struct mark mark_of(unsigned request)
{
	struct mark none = { 0, 0, '.' };
	size_t i;
	for (i = 0; i < row.mark_count; i++) {
		if (row.marks[i].request == request)
			return row.marks[i];
	}
	return none;
}

/* Does what a cue says under the mark of its request, and gives the reply. */
static uint64_t reply(struct line_failure *failure, struct swd_cue cue)
{
	uint64_t seen;
	struct mark mark;
	if (cue.kind == SWD_ASK)
		asked++;
	mark = mark_of(asked);
	if (cue.kind == SWD_ASK && mark.kind == 'd')
		return 7;
	if (cue.kind == SWD_ASK && !swd_target_hold(&target, mark.kind == 'w'))
		failure->has_failed = true;
	if (cue.kind == SWD_GIVE && mark.kind == 'f')
		cue.bits ^= (uint64_t)1 << mark.place;
	seen = line_reply(failure, &cue);
	if ((cue.kind == SWD_ASK && mark.kind == 'm') || (cue.kind == SWD_TAKE && mark.kind == 'f'))
		seen ^= (uint64_t)1 << mark.place;
	return seen;
}

/* Does the accesses, and says what came of them. Gives whether the library and the target took each call. */
static bool perform(struct swd_run *run)
{
	static struct swd_outcome answers[MOST_ACCESSES];
	struct line_failure failure;
	struct swd_cue cue = swd_run_cue(run);
	size_t i;
	memset(&failure, 0, sizeof failure);
	while (cue.kind != SWD_REST && cue.kind != SWD_REFUSED && !failure.has_failed) {
		uint64_t seen = reply(&failure, cue);
		cue = swd_run_next(run, row.accesses, row.access_count, answers, MOST_ACCESSES, seen);
	}
	for (i = 0; i < run->answered; i++) {
		if (answers[i].kind == SWD_VALUE)
			say(came, "= %08lx\n", (unsigned long)answers[i].word);
		else
			say(came, "= %s\n", answers[i].kind == SWD_WRITTEN ? "written" : "busfault");
	}
	/* Of a resumed run `begun` is its own alone; what an earlier one started is in flight, too. */
	if (started < run->answered + run->begun)
		started = run->answered + run->begun;
	if (started > run->answered)
		say(came, "begun %u\n", started - run->answered);
	say(came, "end %s %lu\n", swd_outcome_name(run->end.kind), (unsigned long)run->requests);
	return cue.kind == SWD_REST && !failure.has_failed;
}

static bool starts(const char *line, const char *words)
{
	return strncmp(line, words, strlen(words)) == 0;
}

static void add_access(uint32_t addr, uint32_t word, uint8_t write)
{
	struct swd_access *access = &row.accesses[row.access_count++ % MOST_ACCESSES];
	access->addr = addr;
	access->word = word;
	access->write = write;
}

/* Takes a line of a row. Gives whether it is one. */
static bool take(const char *line)
{
	unsigned long addr, word;
	unsigned request, place = 0;
	char kind[8];
	if (sscanf(line, "mark %u %7s %u", &request, kind, &place) >= 2) {
		struct mark mark = { request, place, kind[0] };
		row.marks[row.mark_count++ % MOST_MARKS] = mark;
	} else if (starts(line, "w ") && sscanf(line, "w %lx %lx", &addr, &word) == 2) {
		add_access((uint32_t)addr, (uint32_t)word, 1);
	} else if (starts(line, "r ") && sscanf(line, "r %lx", &addr) == 1) {
		add_access((uint32_t)addr, 0, 0);
	} else if (sscanf(line, "block %lx %u", &addr, &request) == 2) {
		row.is_block = true;
		for (place = 0; place < request; place++)
			add_access((uint32_t)addr + 4 * place, 0, 0);
	} else if (strcmp(line, "late") == 0) {
		row.is_late = true;
	} else if (sscanf(line, "bursts %c", &row.bursts) != 1 && sscanf(line, "tries %u", &row.tries) != 1
	           && sscanf(line, "memory %u %u", &row.words, &row.room) != 2) {
		return starts(line, "> ") || starts(line, "= ") || starts(line, "begun ") || starts(line, "end ")
		       || starts(line, "resume ") || starts(line, "log ");
	}
	return true;
}

/*
 * Runs a row once, with bursts of writes or of reads, over a target whose address wraps at a kilobyte or doesn't. Gives
 * whether what came is what it says.
 */
static bool comes_out(bool reads, uint8_t wraps)
{
	struct swd_run run;
	bool is_whole;
	size_t i;
	memset(memory, 0, sizeof memory);
	asked = logged = started = 0;
	came[0] = wanted[0] = logs[0] = 0;
	swd_target_new(&target, wraps, wraps ? 0 : 0xa5a5a5a5);
	(reads ? swd_run_blocks : swd_run_new)(&run, row.tries);
	is_whole = perform(&run);
	for (i = 1; i < row.count; i++) {
		const char *line = row.lines[i];
		unsigned tries;
		if (starts(line, "= ") || starts(line, "begun ") || starts(line, "end ") || starts(line, "log ")
		    || starts(line, "resume "))
			say(wanted, "%s\n", line);
		if (sscanf(line, "resume %u", &tries) == 1) {
			say(came, "%s\n", line);
			is_whole = is_whole && swd_run_again(&run, tries) && perform(&run);
		}
	}
	say(came, "%s", logs);
	/* Only a run that ended early can be resumed. */
	if (is_whole && strcmp(came, wanted) == 0 && swd_run_again(&run, 0) == (run.end.kind != SWD_ALL))
		return true;
	printf("%s, with bursts of %s, wraps %u, came to:\n%s", row.lines[0], reads ? "reads" : "writes", wraps, came);
	return false;
}

/* Reads the next row of a file into `row`. Gives whether there was one. */
static bool next_row(FILE *file)
{
	char line[LINE];
	memset(&row, 0, sizeof row);
	row.words = row.room = 16;
	row.tries = 8;
	while (fgets(line, sizeof line, file)) {
		line[strcspn(line, "\n")] = 0;
		if (line[0] == 0 && row.count > 0)
			return true;
		if (line[0] == 0 || line[0] == '#')
			continue;
		strcpy(row.lines[row.count++ % MOST_MARKS], line);
		if (row.count > MOST_MARKS || (row.count > 1 && !take(line)) || row.access_count > MOST_ACCESSES
		    || row.words > MOST) {
			printf("%s: this is no line of a row: %s\n", row.lines[0], line);
			exit(1);
		}
	}
	return row.count > 0;
}

int main(int count, char **words)
{
	FILE *file = count > 1 ? fopen(words[1], "r") : NULL;
	unsigned runs = 0, wrong = 0;
	if (!file) {
		printf("no file of rows\n");
		return 1;
	}
	while (next_row(file)) {
		uint8_t way;
		/* The library has neither late transfers nor runs without bursts. */
		for (way = 0; way < 4 && !row.is_late && row.bursts != 'n'; way++) {
			bool reads = way % 2 == 1;
			if (reads ? row.bursts == 'w' : row.bursts == 'r' || row.is_block)
				continue;
			runs++;
			wrong += !comes_out(reads, way / 2);
		}
	}
	fclose(file);
	printf("%u runs of rows, %u wrong\n", runs, wrong);
	return runs > 0 && wrong == 0 ? 0 : 1;
}
