"""Programs the flash of three families of microcontrollers over a `swd.Session`, by words and polls, as the scripts
beside do. docs/RECIPES.md, 'How to program flash', says what comes before and after. Neither was run on a chip yet."""
import struct

import swd


def program_nrf52(session, addr, words):
    """Erases the page of 4 KiB at an address, and programs words there."""
    ready, config, erase_page = 0x4001E400, 0x4001E504, 0x4001E508
    session.until(ready, 1, 1)
    session.write(config, 2)
    session.write(erase_page, addr)
    session.until(ready, 1, 1, 100000)
    session.write(config, 1)
    for place, word in enumerate(words):
        session.write(addr + 4 * place, word)
        session.until(ready, 1, 1)
    session.write(config, 0)
    session.verify(addr, struct.pack(f"<{len(words)}I", *words))


def program_samd21(session, addr, words):
    """Erases the row of 256 bytes at an address, and programs words there, at most 64."""
    command, control, flags, status, address = 0x41004000, 0x41004004, 0x41004014, 0x41004018, 0x4100401C

    def make(number):
        session.write(command, 0xA500 | number)
        session.until(flags, 3, 1, 100000)

    session.until(flags, 1, 1)
    session.run([
        swd.Write(control, 0x40080), swd.Write(status, 0x1C), swd.Write(flags, 2), swd.Write(address, addr // 2),
    ])
    make(0x02)
    for page in range(0, len(words), 16):
        make(0x44)
        session.run([swd.Write(addr + 4 * place, words[place]) for place in range(page, min(page + 16, len(words)))])
        make(0x04)
    session.verify(addr, struct.pack(f"<{len(words)}I", *words))


def program_stm32g0(session, addr, words):
    """Erases the page of 2 KiB at an address, and programs an even number of words there."""
    keys, status, control = 0x40022008, 0x40022010, 0x40022014
    page = (addr - 0x08000000) // 2048 << 3

    def wait():
        session.until(status, 0x50000, 0, 100000)

    wait()
    session.write(keys, 0x45670123)
    session.write(keys, 0xCDEF89AB)
    session.until(control, 0x80000000, 0, 1)
    session.write(status, 0xC3FB)
    session.write(control, page | 2)
    session.write(control, 0x10000 | page | 2)
    wait()
    session.write(control, 1)
    for place in range(0, len(words), 2):
        session.run([swd.Write(addr + 4 * at, words[at]) for at in (place, place + 1)])
        wait()
    session.write(control, 0x80000000)
    session.verify(addr, struct.pack(f"<{len(words)}I", *words))
