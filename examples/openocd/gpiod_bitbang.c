/*
 * The calls of libgpiod 1 that the linuxgpiod driver of OpenOCD 0.12.0 makes, as remote_bitbang characters for serial
 * wire over a TCP connection to 127.0.0.1. So that release, whose own remote_bitbang driver has JTAG alone, reaches
 * `swd target`. Built as a shared library and preloaded; SWCLK is line 0 of chip 0, SWDIO line 1.
 *
 * SWD_PORT is the port, 4711 where it isn't set. A server that is only just starting is waited for, ten seconds at
 * most.
 */
#define _POSIX_C_SOURCE 200809L
#include <arpa/inet.h>
#include <netinet/in.h>
#include <netinet/tcp.h>
#include <stdio.h>
#include <stdlib.h>
#include <sys/socket.h>
#include <time.h>
#include <unistd.h>

struct gpiod_chip {
	int number;
};

struct gpiod_line {
	int offset;
};

struct gpiod_line_request_config {
	const char *consumer;
	int request_type, flags;
};

enum { CLOCK = 0, DATA = 1 };

/* The kinds of requests that libgpiod tells apart. */
enum { AS_IS = 1, INPUT = 2, OUTPUT = 3 };

static struct gpiod_chip chip;
static struct gpiod_line lines[2] = { { CLOCK }, { DATA } };
static int levels[2], server = -1;

/* Characters wait here until an answer is needed. */
static char waiting[4096];
static size_t count;

static void fail(const char *what)
{
	perror(what);
	_exit(1);
}

static void flush(void)
{
	size_t sent = 0;
	while (sent < count) {
		ssize_t some = send(server, waiting + sent, count - sent, MSG_NOSIGNAL);
		if (some <= 0)
			fail("gpiod_bitbang: send");
		sent += (size_t)some;
	}
	count = 0;
}

static void put(char character)
{
	if (count == sizeof waiting)
		flush();
	waiting[count++] = character;
}

/* Both pins by one character: d and e with SWCLK low, f and g with it high, and SWDIO 0 or 1. */
static void put_levels(void)
{
	put((char)('d' + 2 * levels[CLOCK] + levels[DATA]));
}

struct gpiod_chip *gpiod_chip_open_by_number(unsigned number)
{
	const char *port = getenv("SWD_PORT");
	const struct timespec pause = { 0, 20000000 };
	struct sockaddr_in address = { 0 };
	int on = 1, tries = 500;
	if (number != 0)
		return NULL;
	address.sin_family = AF_INET;
	address.sin_port = htons((unsigned short)atoi(port ? port : "4711"));
	address.sin_addr.s_addr = htonl(INADDR_LOOPBACK);
	while (server < 0) {
		server = socket(AF_INET, SOCK_STREAM, 0);
		if (server < 0)
			fail("gpiod_bitbang: socket");
		if (connect(server, (struct sockaddr *)&address, sizeof address) == 0)
			break;
		close(server);
		server = -1;
		if (--tries == 0)
			fail("gpiod_bitbang: connect");
		nanosleep(&pause, NULL);
	}
	setsockopt(server, IPPROTO_TCP, TCP_NODELAY, &on, sizeof on);
	return &chip;
}

void gpiod_chip_close(struct gpiod_chip *opened)
{
	(void)opened;
	if (server < 0)
		return;
	put('Q');
	flush();
	close(server);
	server = -1;
}

struct gpiod_line *gpiod_chip_get_line(struct gpiod_chip *opened, unsigned offset)
{
	(void)opened;
	return offset <= DATA ? &lines[offset] : NULL;
}

int gpiod_line_set_value(struct gpiod_line *line, int value)
{
	levels[line->offset] = value != 0;
	put_levels();
	return 0;
}

int gpiod_line_get_value(struct gpiod_line *line)
{
	char level;
	if (line->offset == CLOCK)
		return levels[CLOCK];
	put('c');
	flush();
	if (recv(server, &level, 1, 0) != 1 || (level != '0' && level != '1'))
		fail("gpiod_bitbang: no level came back");
	return level - '0';
}

int gpiod_line_request_input(struct gpiod_line *line, const char *consumer)
{
	(void)consumer;
	if (line->offset == DATA)
		put('o');
	return 0;
}

int gpiod_line_request_output(struct gpiod_line *line, const char *consumer, int value)
{
	(void)consumer;
	if (line->offset == DATA)
		put('O');
	return gpiod_line_set_value(line, value);
}

int gpiod_line_request(struct gpiod_line *line, const struct gpiod_line_request_config *config, int value)
{
	if (config->request_type == OUTPUT)
		return gpiod_line_request_output(line, config->consumer, value);
	if (config->request_type == INPUT)
		return gpiod_line_request_input(line, config->consumer);
	return config->request_type == AS_IS ? 0 : -1;
}

void gpiod_line_release(struct gpiod_line *line)
{
	(void)line;
}

const char *gpiod_version_string(void)
{
	return "remote_bitbang characters";
}
