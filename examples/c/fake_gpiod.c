/*
 * As much of libgpiod 2 as pins_gpiod.c calls, over the board of these examples: its target answers WAIT while its bus
 * is busy, and one bit on the wire arrives changed. A cycle is the falling edge of SWCLK, line 25; SWDIO is line 24.
 * A line that isn't there, a value put on an input and a read of an output fail, as a kernel lets them.
 */
#include <errno.h>
#include <gpiod.h>
#include "board.h"

enum { SWDIO = 24, SWCLK = 25, LINES = 2 };

struct gpiod_chip {
	struct board board;
};

struct gpiod_line_settings {
	enum gpiod_line_direction direction;
};

struct gpiod_line_config {
	int used;
	unsigned outputs[LINES];
	int count;
};

struct gpiod_line_request {
	struct gpiod_line_config *config;
	int clock, data, level;
};

static struct gpiod_chip chip;
static struct gpiod_line_settings settings_in_use;
static struct gpiod_line_config configs[2];
static struct gpiod_line_request request;

static int refuse(int why)
{
	errno = why;
	return -1;
}

static int is_output(unsigned line)
{
	int i;
	for (i = 0; i < request.config->count; i++)
		if (request.config->outputs[i] == line)
			return 1;
	return 0;
}

struct gpiod_chip *gpiod_chip_open(const char *path)
{
	(void)path;
	board_new(&chip.board);
	chip.board.takes = 20;
	chip.board.spoils = 800;
	return &chip;
}

struct gpiod_line_settings *gpiod_line_settings_new(void)
{
	settings_in_use.direction = GPIOD_LINE_DIRECTION_AS_IS;
	return &settings_in_use;
}

void gpiod_line_settings_free(struct gpiod_line_settings *settings)
{
	(void)settings;
}

int gpiod_line_settings_set_direction(struct gpiod_line_settings *settings, enum gpiod_line_direction direction)
{
	settings->direction = direction;
	return 0;
}

int gpiod_line_settings_set_output_value(struct gpiod_line_settings *settings, enum gpiod_line_value value)
{
	(void)settings;
	return value == GPIOD_LINE_VALUE_ACTIVE ? 0 : refuse(EINVAL);
}

int gpiod_line_settings_set_bias(struct gpiod_line_settings *settings, enum gpiod_line_bias bias)
{
	return settings->direction == GPIOD_LINE_DIRECTION_INPUT && bias == GPIOD_LINE_BIAS_PULL_UP ? 0 : refuse(EINVAL);
}

struct gpiod_line_config *gpiod_line_config_new(void)
{
	struct gpiod_line_config *config = configs[0].used ? &configs[1] : &configs[0];
	config->used = 1;
	return config;
}

int gpiod_line_config_add_line_settings(struct gpiod_line_config *config, const unsigned int *offsets, size_t count,
	struct gpiod_line_settings *settings)
{
	if (count != 1 || (*offsets != SWDIO && *offsets != SWCLK))
		return refuse(EINVAL);
	if (settings->direction == GPIOD_LINE_DIRECTION_OUTPUT)
		config->outputs[config->count++] = *offsets;
	return 0;
}

struct gpiod_line_request *gpiod_chip_request_lines(struct gpiod_chip *opened, struct gpiod_request_config *wanted,
	struct gpiod_line_config *lines)
{
	(void)opened;
	(void)wanted;
	request.config = lines;
	request.clock = request.data = request.level = 1;
	return &request;
}

int gpiod_line_request_reconfigure_lines(struct gpiod_line_request *asked, struct gpiod_line_config *config)
{
	asked->config = config;
	asked->data = 1;
	return 0;
}

int gpiod_line_request_set_value(struct gpiod_line_request *asked, unsigned int offset, enum gpiod_line_value value)
{
	if (!is_output(offset))
		return refuse(EPERM);
	if (offset == SWDIO) {
		asked->data = value;
		return 0;
	}
	if (asked->clock && !value)
		asked->level = board_clock(&chip.board, is_output(SWDIO) ? asked->data : -1);
	asked->clock = value;
	return 0;
}

enum gpiod_line_value gpiod_line_request_get_value(struct gpiod_line_request *asked, unsigned int offset)
{
	if (offset != SWDIO || is_output(offset))
		return (enum gpiod_line_value)refuse(EPERM);
	/* Behind the rising edge the target changes its level: it is another one then. */
	return asked->level != asked->clock ? GPIOD_LINE_VALUE_ACTIVE : GPIOD_LINE_VALUE_INACTIVE;
}
