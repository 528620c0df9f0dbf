/* A flash algorithm of the form that CMSIS packs have, for the imaginary NOR flash of checks/flash. A debugger puts it
 * into RAM at any address and calls its functions, one at a time: each returns 0, or 1 where it failed. It has no
 * static data, so that nothing has to be relocated.
 *
 *   arm-none-eabi-gcc -mcpu=cortex-m0 -mthumb -Os -ffreestanding -nostdlib -T nor.ld nor.c -o nor.flm
 *
 * The flash has 128 KiB at 08000000: four sectors of 4 KiB, and then fourteen of 8 KiB. An erased byte is ff; a word is
 * programmed once, after its sector was erased. Its controller has words:
 *
 *   40022000 KEY      the two keys, one after the other, unlock it; a 0 locks it
 *   40022004 STATUS   bit 0 busy, bit 1 the last command failed, bit 2 locked
 *   40022008 ADDRESS  of the sector or the word
 *   4002200c DATA     the word
 *   40022010 COMMAND  1 erases the sector at ADDRESS, 2 programs DATA at ADDRESS
 */
#include <stdint.h>

struct controller {
    volatile uint32_t key, status, address, data, command;
};

#define CONTROLLER ((struct controller *)0x40022000)
enum { BUSY = 1, FAILED = 2, LOCKED = 4, ERASE = 1, PROGRAM = 2 };

/* FlashDevice, which the debugger reads from the file. */
struct sectors {
    uint32_t size, offset;
};

struct device {
    uint16_t version;
    char name[128];
    uint16_t type;
    uint32_t address, size, page, reserved;
    uint8_t erased;
    uint32_t program_ms, erase_ms;
    struct sectors sectors[3];
};

__attribute__((section("DevDscr"), used)) const struct device FlashDevice = {
    0x0101, "An imaginary NOR flash", 1, 0x08000000, 0x20000, 256, 0, 0xff, 100, 1000,
    {{0x1000, 0}, {0x2000, 0x4000}, {0xffffffff, 0xffffffff}},
};

/* Makes a command, and waits until it is done. */
static int made(uint32_t command, uint32_t address, uint32_t data) {
    CONTROLLER->address = address;
    CONTROLLER->data = data;
    CONTROLLER->command = command;
    while (CONTROLLER->status & BUSY) {
    }
    return (CONTROLLER->status & FAILED) != 0;
}

/* Unlocks the flash, before functions of one kind: 1 erases, 2 programs, 3 verifies. */
int Init(uint32_t address, uint32_t clock, uint32_t kind) {
    (void)address, (void)clock, (void)kind;
    CONTROLLER->key = 0x4e4f5246;
    CONTROLLER->key = 0x554e4c4b;
    return (CONTROLLER->status & LOCKED) != 0;
}

/* Locks the flash. */
int UnInit(uint32_t kind) {
    (void)kind;
    CONTROLLER->key = 0;
    return 0;
}

/* Erases the sector at an address. */
int EraseSector(uint32_t address) {
    return made(ERASE, address, 0);
}

/* Programs `size` bytes, a page or less, from `bytes` on. */
int ProgramPage(uint32_t address, uint32_t size, const uint32_t *bytes) {
    for (uint32_t at = 0; at < size; at += 4)
        if (made(PROGRAM, address + at, bytes[at / 4]))
            return 1;
    return 0;
}
