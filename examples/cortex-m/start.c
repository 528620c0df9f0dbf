/*
 * Start of a program on the Cortex-M of qemu's board mps2-an385, with newlib over semihosting: main's words are those
 * of qemu's option -semihosting-config.
 */
#include <stdint.h>
#include <stdlib.h>
#include <string.h>

/* By mps2.ld. */
extern uint32_t data_from, data_begin, data_end, bss_begin, bss_end, stack_end;

extern void initialise_monitor_handles(void);
extern void __libc_init_array(void);
extern int main(int, char **);

/* Called by newlib around main. */
void _init(void) { }
void _fini(void) { }

enum { SYS_EXIT = 0x18, SYS_GET_CMDLINE = 0x15, RUN_TIME_ERROR = 0x20023 };

/* A call of the semihosting interface. */
static int ask(int operation, void *block)
{
	register int number __asm("r0") = operation;
	register void *at __asm("r1") = block;
	__asm volatile("bkpt #0xab" : "+r"(number) : "r"(at) : "memory");
	return number;
}

/* Ends qemu with status 1. */
static void fault(void)
{
	ask(SYS_EXIT, (void *)RUN_TIME_ERROR);
	for (;;)
		;
}

enum { MOST_WORDS = 8 };

/* Cuts the command line at its blanks. */
static int get_words(char **words)
{
	static char line[256];
	struct {
		char *line;
		int size;
	} block = { line, sizeof line };
	int count = 0;
	char *word;
	if (ask(SYS_GET_CMDLINE, &block) != 0)
		return 0;
	for (word = strtok(line, " "); word && count < MOST_WORDS; word = strtok(NULL, " "))
		words[count++] = word;
	return count;
}

void reset(void)
{
	static char *words[MOST_WORDS + 1];
	memcpy(&data_begin, &data_from, (size_t)((char *)&data_end - (char *)&data_begin));
	memset(&bss_begin, 0, (size_t)((char *)&bss_end - (char *)&bss_begin));
	initialise_monitor_handles();
	__libc_init_array();
	exit(main(get_words(words), words));
}

__attribute__((section(".vectors"), used)) static void *const vectors[] = {
	&stack_end, (void *)reset, (void *)fault, (void *)fault, (void *)fault, (void *)fault, (void *)fault,
};
