/* swd-line: runs a program whose standard streams are a remote_bitbang line, over a socket, a terminal or two files.
 *
 *     swd-line [--timeout S] HOST:PORT | TTY[,BAUD] | IN,OUT -- PROGRAM ARGUMENT ..
 *
 * Each byte that the program writes goes to the line, and each byte of the line to the program. A line whose other end
 * is gone, or that owes an answer for S seconds, is closed: the program then reads the end of its input. swd-line ends
 * with the program's status; with 128 + N where signal N ended it; with 2 where the line can't be opened or another
 * swd-line has the terminal or IN in use, and 127 where the program can't be started. A line owes one byte for each R
 * and c that was sent to it, the reads of TDO and SWDIO. */
#define _GNU_SOURCE
#include <errno.h>
#include <fcntl.h>
#include <netdb.h>
#include <netinet/in.h>
#include <netinet/tcp.h>
#include <poll.h>
#include <signal.h>
#include <stdarg.h>
#include <stdio.h>
#include <stdlib.h>
#include <string.h>
#include <sys/file.h>
#include <sys/socket.h>
#include <sys/wait.h>
#include <termios.h>
#include <time.h>
#include <unistd.h>

enum { FAULT = 2, NO_PROGRAM = 127, BLOCK = 65536 };
/* After how many milliseconds it is said what is awaited. */
static const long long PATIENCE = 2000;

/* Bytes on their way from one descriptor to another. */
struct way {
    int from, to;
    size_t begin, end;
    char bytes[BLOCK];
};

struct line {
    const char *name;
    int in, out;
    int has_settings;
    struct termios settings;
};

static pid_t program = -1;

static void say(const char *format, ...)
{
    va_list words;
    va_start(words, format);
    fputs("swd-line: ", stderr);
    vfprintf(stderr, format, words);
    fputc('\n', stderr);
    va_end(words);
}

static void fail(const char *what, const char *name, const char *why)
{
    say("%s %s: %s", what, name, why);
    exit(FAULT);
}

static long long now(void)
{
    struct timespec at;
    clock_gettime(CLOCK_MONOTONIC, &at);
    return at.tv_sec * 1000LL + at.tv_nsec / 1000000;
}

static void pass_on(int signal)
{
    if (program > 0)
        kill(program, signal);
}

/* A number without a sign, at most `most`, or -1. */
static long number(const char *word, long most)
{
    char *end;
    errno = 0;
    long value = word[0] >= '0' && word[0] <= '9' ? strtol(word, &end, 10) : -1;
    return value < 0 || *end || errno || value > most ? -1 : value;
}

static int set_flag(int file, int flag)
{
    return fcntl(file, F_SETFL, fcntl(file, F_GETFL) | flag);
}

/* Waits until a connection stands; returns 0, or why it doesn't. */
static int connected(int made, const char *name, long long timeout)
{
    long long began = now();
    int is_said = 0;
    for (;;) {
        struct pollfd at = {made, POLLOUT, 0};
        int ready = poll(&at, 1, 100);
        int why = 0;
        socklen_t size = sizeof why;
        if (ready > 0)
            return getsockopt(made, SOL_SOCKET, SO_ERROR, &why, &size) ? errno : why;
        if (timeout && now() - began >= timeout)
            return ETIMEDOUT;
        if (!is_said && now() - began >= PATIENCE) {
            say("waiting for a connection to %s", name);
            is_said = 1;
        }
    }
}

static int open_socket(const char *name, long long timeout)
{
    char host[256];
    const char *port = strrchr(name, ':');
    size_t length = (size_t)(port - name);
    int is_bracketed = length > 1 && name[0] == '[' && name[length - 1] == ']';
    if (length >= sizeof host)
        fail("cannot connect to", name, "the name is too long");
    memcpy(host, name + is_bracketed, length - 2 * (size_t)is_bracketed);
    host[length - 2 * (size_t)is_bracketed] = 0;
    struct addrinfo wanted = {.ai_socktype = SOCK_STREAM}, *all;
    int why = getaddrinfo(host, port + 1, &wanted, &all), one = 1;
    if (why)
        fail("cannot connect to", name, gai_strerror(why));
    for (struct addrinfo *at = all; at; at = at->ai_next) {
        int made = socket(at->ai_family, at->ai_socktype | SOCK_NONBLOCK | SOCK_CLOEXEC, at->ai_protocol);
        if (made < 0) {
            why = errno;
            continue;
        }
        why = connect(made, at->ai_addr, at->ai_addrlen) && errno != EINPROGRESS ? errno
                                                                                 : connected(made, name, timeout);
        if (!why) {
            freeaddrinfo(all);
            setsockopt(made, IPPROTO_TCP, TCP_NODELAY, &one, sizeof one);
            return made;
        }
        close(made);
    }
    fail("cannot connect to", name, strerror(why));
    return -1;
}

static speed_t speed_of(long baud)
{
    static const struct {
        long baud;
        speed_t speed;
    } SPEEDS[] = {
        {9600, B9600},       {19200, B19200},     {38400, B38400},     {57600, B57600},     {115200, B115200},
        {230400, B230400},   {460800, B460800},   {500000, B500000},   {921600, B921600},   {1000000, B1000000},
        {1500000, B1500000}, {2000000, B2000000}, {3000000, B3000000}, {4000000, B4000000},
    };
    for (size_t at = 0; at < sizeof SPEEDS / sizeof SPEEDS[0]; at++)
        if (SPEEDS[at].baud == baud)
            return SPEEDS[at].speed;
    return B0;
}

/* Refuses what another swd-line reads: each would take some of the other's levels. */
static void lock(int file, const char *path)
{
    if (flock(file, LOCK_EX | LOCK_NB) && errno == EWOULDBLOCK)
        fail("cannot open", path, "another swd-line has it in use");
}

/* Opens a terminal, and has it pass each byte as it is. */
static void open_terminal(struct line *line, const char *path, const char *baud)
{
    line->in = line->out = open(path, O_RDWR | O_NOCTTY | O_NONBLOCK | O_CLOEXEC);
    if (line->in < 0)
        fail("cannot open", path, strerror(errno));
    lock(line->in, path);
    if (tcgetattr(line->in, &line->settings))
        fail("cannot open", path, "it is no terminal; two files are named IN,OUT");
    line->has_settings = 1;
    struct termios raw = line->settings;
    cfmakeraw(&raw);
    raw.c_cflag |= CLOCAL | CREAD;
    if (baud && (speed_of(number(baud, 4000000)) == B0 || cfsetspeed(&raw, speed_of(number(baud, 4000000)))))
        fail("cannot use", baud, "it is no speed of a terminal, in baud");
    if (tcsetattr(line->in, TCSANOW, &raw))
        fail("cannot set up", path, strerror(errno));
    tcflush(line->in, TCIOFLUSH);
}

/* Opens two files. A pipe that nobody reads yet is awaited. */
static void open_files(struct line *line, const char *in, const char *out, long long timeout)
{
    long long began = now();
    int is_said = 0;
    line->in = open(in, O_RDONLY | O_NONBLOCK | O_CLOEXEC);
    if (line->in < 0)
        fail("cannot open", in, strerror(errno));
    lock(line->in, in);
    while ((line->out = open(out, O_WRONLY | O_NONBLOCK | O_CLOEXEC)) < 0) {
        if (errno != ENXIO || (timeout && now() - began >= timeout))
            fail("cannot open", out, errno == ENXIO ? "nobody reads it" : strerror(errno));
        if (!is_said && now() - began >= PATIENCE) {
            say("waiting for a reader of %s", out);
            is_said = 1;
        }
        poll(NULL, 0, 50);
    }
}

static struct line open_line(char *name, long long timeout)
{
    struct line line = {.name = name, .in = -1, .out = -1};
    char *comma = strchr(name, ','), *colon = strrchr(name, ':');
    if (comma && number(comma + 1, 4000000) >= 0) {
        *comma = 0;
        open_terminal(&line, name, comma + 1);
    } else if (comma) {
        char *in = strndup(name, (size_t)(comma - name));
        open_files(&line, in ? in : name, comma + 1, timeout);
        free(in);
    } else if (colon && colon > name && number(colon + 1, 65535) > 0) {
        line.in = line.out = open_socket(name, timeout);
    } else {
        open_terminal(&line, name, NULL);
    }
    return line;
}

/* Starts the program with pipes for its standard streams. */
static void start(char **words, int *to_program, int *from_program)
{
    int in[2], out[2];
    if (pipe2(in, O_CLOEXEC) || pipe2(out, O_CLOEXEC))
        fail("cannot start", words[0], strerror(errno));
    program = fork();
    if (program < 0)
        fail("cannot start", words[0], strerror(errno));
    if (program == 0) {
        static const int OWN[] = {SIGPIPE, SIGINT, SIGQUIT, SIGTERM, SIGHUP};
        for (size_t at = 0; at < sizeof OWN / sizeof OWN[0]; at++)
            signal(OWN[at], SIG_DFL);
        dup2(in[0], 0);
        dup2(out[1], 1);
        execvp(words[0], words);
        say("cannot start %s: %s", words[0], strerror(errno));
        _exit(NO_PROGRAM);
    }
    close(in[0]);
    close(out[1]);
    *to_program = in[1];
    *from_program = out[0];
    set_flag(*to_program, O_NONBLOCK);
    set_flag(*from_program, O_NONBLOCK);
}

/* Reads what there is room for. Returns how many bytes came, 0 if none, -1 at the end. */
static ssize_t take(struct way *way)
{
    ssize_t count = read(way->from, way->bytes, sizeof way->bytes);
    if (count < 0 && (errno == EAGAIN || errno == EINTR))
        return 0;
    way->begin = 0;
    way->end = count > 0 ? (size_t)count : 0;
    return count > 0 ? count : -1;
}

/* Writes what came. Returns -1 where nobody takes it. */
static int give(struct way *way)
{
    ssize_t count = write(way->to, way->bytes + way->begin, way->end - way->begin);
    if (count < 0)
        return errno == EAGAIN || errno == EINTR ? 0 : -1;
    way->begin += (size_t)count;
    return 0;
}

static int holds(const struct way *way)
{
    return way->begin < way->end;
}

/* How many bytes the line owes for what is about to be sent to it. */
static long long asked(const struct way *way)
{
    long long count = 0;
    for (size_t at = way->begin; at < way->end; at++)
        count += way->bytes[at] == 'R' || way->bytes[at] == 'c';
    return count;
}

/* The end of the program's input: nothing more comes of the line. */
static void end_input(struct way *back)
{
    if (back->to >= 0)
        close(back->to);
    back->to = back->from = -1;
    back->begin = back->end = 0;
}

/* What a turn waits for: input where there is room, and output where something is held. */
static void await(struct pollfd *at, const struct way *there, const struct way *back)
{
    at[0] = (struct pollfd){holds(there) ? -1 : there->from, POLLIN, 0};
    at[1] = (struct pollfd){holds(there) ? there->to : -1, POLLOUT, 0};
    at[2] = (struct pollfd){holds(back) ? -1 : back->from, POLLIN, 0};
    at[3] = (struct pollfd){holds(back) ? back->to : -1, POLLOUT, 0};
}

/* Relays until the program has closed its output. `owed` counts the line's answers that are outstanding. */
static void relay(struct way *there, struct way *back, const char *name, long long timeout)
{
    long long owed = 0, since = now();
    int is_said = 0;
    while (there->from >= 0) {
        struct pollfd at[4];
        await(at, there, back);
        if (poll(at, 4, 100) < 0 && errno != EINTR)
            return;
        if (at[0].revents) {
            ssize_t count = take(there);
            if (count < 0)
                there->from = -1;
            else if (back->from < 0)
                there->begin = there->end;
            if (count > 0 && owed == 0)
                since = now();
            owed += asked(there);
        }
        if (at[1].revents && give(there) < 0) {
            there->begin = there->end;
            end_input(back);
        }
        if (at[2].revents) {
            ssize_t count = take(back);
            if (count < 0)
                end_input(back);
            else if (count > 0) {
                owed -= count < owed ? count : owed;
                since = now();
            }
        }
        if (at[3].revents && give(back) < 0)
            end_input(back);
        if (back->from < 0 || owed == 0)
            continue;
        if (timeout && now() - since >= timeout) {
            say("%s owes an answer for %lld s: the line is closed", name, timeout / 1000);
            end_input(back);
        } else if (!is_said && now() - since >= PATIENCE) {
            say("waiting for an answer of %s", name);
            is_said = 1;
        }
    }
}

static int status_of_program(void)
{
    int status;
    while (waitpid(program, &status, 0) < 0)
        if (errno != EINTR)
            return FAULT;
    return WIFSIGNALED(status) ? 128 + WTERMSIG(status) : WEXITSTATUS(status);
}

static const char USAGE[] =
    "usage: swd-line [--timeout S] HOST:PORT | TTY[,BAUD] | IN,OUT -- PROGRAM ARGUMENT ..\n"
    "\n"
    "Runs PROGRAM with its standard streams at a remote_bitbang line:\n"
    "  swd-line --timeout 10 localhost:4711 -- swd run SCRIPT --remote --report FILE\n"
    "\n"
    "The line is closed where its other end is gone, or owes an answer for S seconds, 1 to\n"
    "86400; without --timeout it may owe one for good. Status: that of PROGRAM, 128 + N\n"
    "where signal N ended it, 2 where the line can't be opened, 127 where PROGRAM can't be\n"
    "started.\n";

static void misused(const char *why)
{
    fprintf(stderr, "swd-line: %s\n\n%s", why, USAGE);
    exit(FAULT);
}

int main(int count, char **words)
{
    char *name = NULL;
    long timeout = 0;
    int at = 1;
    for (; at < count && strcmp(words[at], "--"); at++) {
        if (!strcmp(words[at], "--help") || !strcmp(words[at], "-h")) {
            fputs(USAGE, stdout);
            return ferror(stdout) || fflush(stdout) ? FAULT : 0;
        }
        if (!strcmp(words[at], "--timeout") && at + 1 < count) {
            timeout = number(words[++at], 86400);
            if (timeout <= 0)
                misused("--timeout takes 1 to 86400 seconds");
        } else if (words[at][0] == '-' || name) {
            misused("what isn't known stands before --");
        } else {
            name = words[at];
        }
    }
    if (!name)
        misused("no line is named");
    if (at + 1 >= count)
        misused("no program stands behind --");
    static struct way there, back;
    signal(SIGPIPE, SIG_IGN);
    struct line line = open_line(name, timeout * 1000LL);
    start(words + at + 1, &back.to, &there.from);
    /* A terminal sends these to the program, too. */
    signal(SIGINT, SIG_IGN);
    signal(SIGQUIT, SIG_IGN);
    signal(SIGTERM, pass_on);
    signal(SIGHUP, pass_on);
    there.to = line.out;
    back.from = line.in;
    relay(&there, &back, name, timeout * 1000LL);
    end_input(&back);
    int status = status_of_program();
    if (line.has_settings)
        tcsetattr(line.in, TCSANOW, &line.settings);
    return status;
}
