/*
 * The library's target in place of two GPIO lines of Linux: the calls of libgpiod that OpenOCD's linuxgpiod driver
 * makes, with a board behind them. Built as a shared library and preloaded, it puts the target into OpenOCD's own
 * process. SWCLK is line 0 of chip 0, and SWDIO line 1.
 */
#include <stddef.h>
#include "board.h"

struct gpiod_chip {
	int number;
};

struct gpiod_line {
	int offset;
};

struct gpiod_line_request_config {
	const char *consumer;
	int request_type, flags;
};

enum { CLOCK = 0, DATA = 1 };

/* The kinds of requests that libgpiod tells apart. */
enum { AS_IS = 1, INPUT = 2, OUTPUT = 3 };

static struct gpiod_chip chip;
static struct gpiod_line lines[2] = { { CLOCK }, { DATA } };
static struct board board;

/* What the pins are at, and the level of SWDIO in this cycle. */
static struct {
	int clock, data, drives, level;
} pins = { 1, 1, 0, 1 };

struct gpiod_chip *gpiod_chip_open_by_number(unsigned number);
void gpiod_chip_close(struct gpiod_chip *opened);
struct gpiod_line *gpiod_chip_get_line(struct gpiod_chip *opened, unsigned offset);
int gpiod_line_request(struct gpiod_line *line, const struct gpiod_line_request_config *config, int value);
int gpiod_line_request_input(struct gpiod_line *line, const char *consumer);
int gpiod_line_request_output(struct gpiod_line *line, const char *consumer, int value);
int gpiod_line_set_value(struct gpiod_line *line, int value);
int gpiod_line_get_value(struct gpiod_line *line);
void gpiod_line_release(struct gpiod_line *line);
const char *gpiod_version_string(void);

struct gpiod_chip *gpiod_chip_open_by_number(unsigned number)
{
	if (number != 0)
		return NULL;
	if (board.target.cycles == 0)
		board_new(&board);
	return &chip;
}

void gpiod_chip_close(struct gpiod_chip *opened)
{
	(void)opened;
}

struct gpiod_line *gpiod_chip_get_line(struct gpiod_chip *opened, unsigned offset)
{
	(void)opened;
	return offset <= DATA ? &lines[offset] : NULL;
}

int gpiod_line_set_value(struct gpiod_line *line, int value)
{
	if (line->offset == DATA) {
		pins.data = value;
	} else {
		/* The cycle begins at the falling edge; both sides look before the rising one. */
		if (pins.clock && !value)
			pins.level = board_clock(&board, pins.drives ? pins.data : -1);
		pins.clock = value;
	}
	return pins.level < 0 ? -1 : 0;
}

int gpiod_line_get_value(struct gpiod_line *line)
{
	return line->offset == DATA ? pins.level : pins.clock;
}

int gpiod_line_request_input(struct gpiod_line *line, const char *consumer)
{
	(void)consumer;
	if (line->offset == DATA)
		pins.drives = 0;
	return 0;
}

int gpiod_line_request_output(struct gpiod_line *line, const char *consumer, int value)
{
	(void)consumer;
	if (line->offset == DATA)
		pins.drives = 1;
	return gpiod_line_set_value(line, value);
}

int gpiod_line_request(struct gpiod_line *line, const struct gpiod_line_request_config *config, int value)
{
	if (config->request_type == OUTPUT)
		return gpiod_line_request_output(line, config->consumer, value);
	if (config->request_type == INPUT)
		return gpiod_line_request_input(line, config->consumer);
	return config->request_type == AS_IS ? 0 : -1;
}

void gpiod_line_release(struct gpiod_line *line)
{
	(void)line;
}

const char *gpiod_version_string(void)
{
	return "the library's target";
}
