/*
 * Writes words to a target on two GPIO lines of Linux and verifies them, over libgpiod 1.6 (Debian 12) or 2: a
 * Raspberry Pi, for example.
 *
 *   pins_gpiod /dev/gpiochip0 25 24 20000000 deadbeef 00000001
 *
 * puts SWCLK on line 25 and SWDIO on line 24. The address and the words are hexadecimal. Build it with
 *
 *   cc -I include -I examples/c examples/c/pins_gpiod.c examples/c/line.c libswd_c.a -lgpiod -o pins_gpiod
 *
 * Exit status: 0 if every word was written and reads back, 1 if not, 2 for a mistake or a failing GPIO.
 */
/* The header of libgpiod 1 uses struct timespec, which C99 alone doesn't have. */
#define _POSIX_C_SOURCE 200809L
#include <errno.h>
#include <gpiod.h>
#include <stdio.h>
#include <stdlib.h>
#include "line.h"

enum { MOST_WORDS = 64 };

static void fail(const char *what)
{
	perror(what);
	exit(2);
}

/* Only the header of libgpiod 1 has this macro. */
#ifdef GPIOD_LINE_BULK_MAX_LINES

static struct gpiod_line *clock_line, *data_line;

static void put_clock(int level)
{
	if (gpiod_line_set_value(clock_line, level))
		fail("gpiod value");
}

static void put_data(int level)
{
	if (gpiod_line_set_value(data_line, level))
		fail("gpiod value");
}

static int get_data(void)
{
	int level = gpiod_line_get_value(data_line);
	if (level < 0)
		fail("gpiod value");
	return level;
}

/* SWDIO as an output, or as an input that is pulled up. */
static void drive_data(int drives, int level)
{
	if (drives ? gpiod_line_set_config(data_line, GPIOD_LINE_REQUEST_DIRECTION_OUTPUT, 0, level)
	           : gpiod_line_set_config(data_line, GPIOD_LINE_REQUEST_DIRECTION_INPUT,
	                                   GPIOD_LINE_REQUEST_FLAG_BIAS_PULL_UP, 0))
		fail("gpiod direction");
}

static struct gpiod_line *output(struct gpiod_chip *chip, unsigned number)
{
	struct gpiod_line *line = gpiod_chip_get_line(chip, number);
	if (!line || gpiod_line_request_output(line, "swd", 1))
		fail("gpiod line");
	return line;
}

static void open_lines(const char *path, unsigned clock, unsigned data)
{
	struct gpiod_chip *chip = gpiod_chip_open(path);
	if (!chip)
		fail(path);
	clock_line = output(chip, clock);
	data_line = output(chip, data);
}

#else

static unsigned clock_line, data_line;
static struct gpiod_line_request *request;

/* The two lines with SWDIO driven, and with SWDIO released. */
static struct gpiod_line_config *driven, *released;

/* Adds a line to a configuration: an output that begins high, or an input that is pulled up. */
static void add(struct gpiod_line_config *config, unsigned line, enum gpiod_line_direction direction)
{
	struct gpiod_line_settings *settings = gpiod_line_settings_new();
	if (!settings || gpiod_line_settings_set_direction(settings, direction)
	    || gpiod_line_settings_set_output_value(settings, GPIOD_LINE_VALUE_ACTIVE)
	    || (direction == GPIOD_LINE_DIRECTION_INPUT && gpiod_line_settings_set_bias(settings, GPIOD_LINE_BIAS_PULL_UP))
	    || gpiod_line_config_add_line_settings(config, &line, 1, settings))
		fail("gpiod settings");
	gpiod_line_settings_free(settings);
}

static struct gpiod_line_config *config_with(enum gpiod_line_direction data)
{
	struct gpiod_line_config *config = gpiod_line_config_new();
	if (!config)
		fail("gpiod configuration");
	add(config, clock_line, GPIOD_LINE_DIRECTION_OUTPUT);
	add(config, data_line, data);
	return config;
}

static void put(unsigned line, int level)
{
	if (gpiod_line_request_set_value(request, line, level ? GPIOD_LINE_VALUE_ACTIVE : GPIOD_LINE_VALUE_INACTIVE))
		fail("gpiod value");
}

static void put_clock(int level)
{
	put(clock_line, level);
}

static void put_data(int level)
{
	put(data_line, level);
}

static int get_data(void)
{
	int level = gpiod_line_request_get_value(request, data_line);
	if (level < 0)
		fail("gpiod value");
	return level;
}

/* SWDIO as an output, or as an input that is pulled up. */
static void drive_data(int drives, int level)
{
	if (gpiod_line_request_reconfigure_lines(request, drives ? driven : released))
		fail("gpiod direction");
	if (drives)
		put_data(level);
}

static void open_lines(const char *path, unsigned clock, unsigned data)
{
	struct gpiod_chip *chip = gpiod_chip_open(path);
	if (!chip)
		fail(path);
	clock_line = clock;
	data_line = data;
	driven = config_with(GPIOD_LINE_DIRECTION_OUTPUT);
	released = config_with(GPIOD_LINE_DIRECTION_INPUT);
	request = gpiod_chip_request_lines(chip, NULL, driven);
	if (!request)
		fail(path);
}

#endif

/* Whether SWDIO is driven. */
static int drives = 1;

/* SWCLK rests high. SWDIO is driven or released while it is high, and read while it is low. */
int line_clock(int drive)
{
	int bit = drive;
	if (drives != (drive != RELEASED)) {
		drives = drive != RELEASED;
		drive_data(drives, drive);
	} else if (drives) {
		put_data(drive);
	}
	put_clock(0);
	if (!drives)
		bit = get_data();
	put_clock(1);
	return bit;
}

/* The number that the argument is, whole and in range. */
static uint32_t number(const char *argument, int base)
{
	char *end;
	unsigned long value;
	errno = 0;
	value = strtoul(argument, &end, base);
	if (errno || end == argument || *end || value > 0xffffffff || *argument == '-') {
		fprintf(stderr, "pins_gpiod: not a number: %s\n", argument);
		exit(2);
	}
	return (uint32_t)value;
}

int main(int argc, char **argv)
{
	uint32_t words[MOST_WORDS];
	struct swd_run run;
	int i, count = argc - 5;
	if (count < 1 || count > MOST_WORDS) {
		fprintf(stderr, "usage: pins_gpiod CHIP SWCLK SWDIO ADDRESS WORD.. (at most %d)\n", MOST_WORDS);
		return 2;
	}
	for (i = 0; i < count; i++)
		words[i] = number(argv[5 + i], 16);
	open_lines(argv[1], number(argv[2], 10), number(argv[3], 10));
	swd_run_new(&run, 8);
	if (!line_program(&run, number(argv[4], 16), words, (size_t)count))
		return 1;
	printf("%d words written and verified over GPIO lines, %lu requests\n", count, (unsigned long)run.requests);
	return 0;
}
