/*
 * What `rt` links beside a program on x86-64, the kit's c/libos_c.a and c/liblibc_c.a, and what the kit lacks for
 * other processors: as much of it as the program calls, by the comments at these functions in the kit's
 * rattle/libc/src/heap.rt and rattle/os/src/c.rt. Nothing proves it.
 */
#include <errno.h>
#include <stdbool.h>
#include <stddef.h>
#include <stdlib.h>
#include <string.h>
#include <sys/types.h>

/* Whether a block was got, and where it is. Where none was, that is no address to be used. */
struct tried {
	bool ok;
	void *block;
};

static max_align_t nowhere;

static struct tried tried(void *block)
{
	struct tried answer = { block != NULL, block ? block : &nowhere };
	return answer;
}

/* malloc's blocks have every alignment that is asked for, and a block of no bytes still has an address of its own. */
struct tried rattle_alloc(size_t size, size_t align)
{
	return tried(malloc(size ? size : align));
}

struct tried rattle_realloc(void *block, size_t kept, size_t size, size_t align)
{
	(void)kept;
	return tried(realloc(block, size ? size : align));
}

void rattle_dealloc(void *block)
{
	free(block);
}

static size_t word_count;
static char **words;

/* glibc hands a constructor what it hands main. */
__attribute__((constructor)) static void keep_words(int count, char **given)
{
	word_count = (size_t)count;
	words = given;
}

size_t rattle_arg_count(void)
{
	return word_count;
}

/* The word's length; -1 where there is none, -2 where it has no room: then `room` bytes of it are put there. */
ssize_t rattle_arg(size_t index, unsigned char *to, size_t room)
{
	size_t length;
	if (index >= word_count)
		return -1;
	length = strlen(words[index]);
	memcpy(to, words[index], length < room ? length : room);
	return length <= room ? (ssize_t)length : -2;
}

int rattle_errno(void)
{
	return errno;
}

void rattle_set_errno(int error)
{
	errno = error;
}
