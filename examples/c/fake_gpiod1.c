/*
 * As much of libgpiod 1.6 as pins_gpiod.c calls, over the same board as fake_gpiod.c's. A line that isn't there or
 * wasn't requested, a value put on an input and a read of an output fail, as a kernel lets them.
 */
#include <errno.h>
#include <gpiod.h>
#include "board.h"

enum { SWDIO = 24, SWCLK = 25 };

struct gpiod_chip {
	struct board board;
};

struct gpiod_line {
	int requested, output, level;
};

static struct gpiod_chip chip;
static struct gpiod_line clock_line, data_line;

/* The level that the target sees and shows in this cycle. */
static int seen = 1;

static int refuse(int why)
{
	errno = why;
	return -1;
}

struct gpiod_chip *gpiod_chip_open(const char *path)
{
	(void)path;
	board_new(&chip.board);
	chip.board.takes = 20;
	chip.board.spoils = 800;
	return &chip;
}

struct gpiod_line *gpiod_chip_get_line(struct gpiod_chip *opened, unsigned int offset)
{
	(void)opened;
	if (offset == SWCLK)
		return &clock_line;
	if (offset == SWDIO)
		return &data_line;
	errno = EINVAL;
	return NULL;
}

int gpiod_line_request_output(struct gpiod_line *line, const char *consumer, int default_val)
{
	if (line->requested || !consumer)
		return refuse(EBUSY);
	line->requested = line->output = 1;
	line->level = default_val;
	return 0;
}

int gpiod_line_set_config(struct gpiod_line *line, int direction, int flags, int value)
{
	if (!line->requested)
		return refuse(EPERM);
	line->output = direction == GPIOD_LINE_REQUEST_DIRECTION_OUTPUT;
	if (flags != (line->output ? 0 : GPIOD_LINE_REQUEST_FLAG_BIAS_PULL_UP))
		return refuse(EINVAL);
	line->level = value;
	return 0;
}

int gpiod_line_set_value(struct gpiod_line *line, int value)
{
	if (!line->requested || !line->output)
		return refuse(EPERM);
	if (line == &clock_line && line->level && !value)
		seen = board_clock(&chip.board, data_line.output ? data_line.level : -1);
	line->level = value;
	return 0;
}

int gpiod_line_get_value(struct gpiod_line *line)
{
	if (line != &data_line || !line->requested || line->output)
		return refuse(EPERM);
	/* Behind the rising edge the target changes its level: it is another one then. */
	return seen != clock_line.level;
}
