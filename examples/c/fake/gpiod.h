/*
 * What pins_gpiod.c calls of libgpiod 2, or with FAKE_GPIOD_1 of libgpiod 1.6, as their headers declare it, for
 * machines without them.
 */
#ifndef FAKE_GPIOD_H
#define FAKE_GPIOD_H

#include <stddef.h>

struct gpiod_chip;

#ifdef FAKE_GPIOD_1

#define GPIOD_LINE_BULK_MAX_LINES 64

struct gpiod_line;

enum {
	GPIOD_LINE_REQUEST_DIRECTION_AS_IS = 1,
	GPIOD_LINE_REQUEST_DIRECTION_INPUT,
	GPIOD_LINE_REQUEST_DIRECTION_OUTPUT
};

enum { GPIOD_LINE_REQUEST_FLAG_BIAS_PULL_UP = 1 << 5 };

struct gpiod_chip *gpiod_chip_open(const char *path);
struct gpiod_line *gpiod_chip_get_line(struct gpiod_chip *chip, unsigned int offset);
int gpiod_line_request_output(struct gpiod_line *line, const char *consumer, int default_val);
int gpiod_line_set_config(struct gpiod_line *line, int direction, int flags, int value);
int gpiod_line_set_value(struct gpiod_line *line, int value);
int gpiod_line_get_value(struct gpiod_line *line);

#else

struct gpiod_line_settings;
struct gpiod_line_config;
struct gpiod_request_config;
struct gpiod_line_request;

enum gpiod_line_value {
	GPIOD_LINE_VALUE_ERROR = -1,
	GPIOD_LINE_VALUE_INACTIVE = 0,
	GPIOD_LINE_VALUE_ACTIVE = 1
};

enum gpiod_line_direction {
	GPIOD_LINE_DIRECTION_AS_IS = 1,
	GPIOD_LINE_DIRECTION_INPUT,
	GPIOD_LINE_DIRECTION_OUTPUT
};

enum gpiod_line_bias {
	GPIOD_LINE_BIAS_AS_IS = 1,
	GPIOD_LINE_BIAS_UNKNOWN,
	GPIOD_LINE_BIAS_DISABLED,
	GPIOD_LINE_BIAS_PULL_UP,
	GPIOD_LINE_BIAS_PULL_DOWN
};

struct gpiod_chip *gpiod_chip_open(const char *path);
struct gpiod_line_request *gpiod_chip_request_lines(struct gpiod_chip *chip, struct gpiod_request_config *request,
	struct gpiod_line_config *lines);
struct gpiod_line_settings *gpiod_line_settings_new(void);
void gpiod_line_settings_free(struct gpiod_line_settings *settings);
int gpiod_line_settings_set_direction(struct gpiod_line_settings *settings, enum gpiod_line_direction direction);
int gpiod_line_settings_set_output_value(struct gpiod_line_settings *settings, enum gpiod_line_value value);
int gpiod_line_settings_set_bias(struct gpiod_line_settings *settings, enum gpiod_line_bias bias);
struct gpiod_line_config *gpiod_line_config_new(void);
int gpiod_line_config_add_line_settings(struct gpiod_line_config *config, const unsigned int *offsets, size_t count,
	struct gpiod_line_settings *settings);
int gpiod_line_request_reconfigure_lines(struct gpiod_line_request *request, struct gpiod_line_config *config);
int gpiod_line_request_set_value(struct gpiod_line_request *request, unsigned int offset, enum gpiod_line_value value);
enum gpiod_line_value gpiod_line_request_get_value(struct gpiod_line_request *request, unsigned int offset);

#endif

#endif
