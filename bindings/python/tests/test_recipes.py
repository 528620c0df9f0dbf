"""Tests of the scripts and functions of examples/flash that program flash, over models of the controllers."""
import os
import runpy
import unittest

import controllers
import swd
from accesses import Accesses
from test_swd import ROOT

# Of each script and function: the model, the address, and whether the chip is reset before a call that starts over.
FAMILIES = {
    "nrf52": (controllers.Nrf52, 0x7F000, False), "samd21": (controllers.Samd21, 0x3FF00, False),
    "stm32g0": (controllers.Stm32G0, 0x08005000, True),
}
WORDS = [0xDEADBEEF, 0x00C0FFEE]
FLASH = os.path.join(ROOT, "examples", "flash")


def functions():
    """The function of each family in examples/flash/by_words.py."""
    names = runpy.run_path(os.path.join(FLASH, "by_words.py"))
    return {family: names[f"program_{family}"] for family in FAMILIES}


def script(family):
    """The words of each line of a family's script, without `memory`, which is for a simulated target."""
    with open(os.path.join(FLASH, f"{family}.script"), encoding="utf-8") as opened:
        lines = [line.split("#")[0].split() for line in opened]
    return [words for words in lines if words and words[0] != "memory"]


def performed(session, lines):
    """Performs a script over a session. Returns whether each word to verify was read."""
    is_right = True
    for command, addr, *numbers in lines:
        values = [int(addr, 16), *(int(number, 0) for number in numbers)]
        if command == "w":
            session.write(*values)
        elif command == "until":
            session.until(*values)
        else:
            is_right &= session.read(values[0]) == values[1]
    return is_right


class Recipes(unittest.TestCase):
    """What docs/RECIPES.md says that they do."""

    def has(self, model, words, addr):
        """The words of a model's flash: these at the address, and the rest of what was erased."""
        rest = [controllers.ERASED] * (model.unit // 4 - len(words))
        self.assertEqual([model.words[addr + 4 * place] for place in range(model.unit // 4)], [*words, *rest])
        self.assertEqual(model.bad, [])

    def test_scripts(self):
        for family, (make, addr, _) in FAMILIES.items():
            with self.subTest(family):
                model = make()
                with swd.Session(swd.Target(model)) as session:
                    self.assertTrue(performed(session, script(family)))
                self.has(model, WORDS, addr)

    def test_functions(self):
        """In each, as many words as are erased at once."""
        for family, function in functions().items():
            make, addr, _ = FAMILIES[family]
            with self.subTest(family):
                model = make()
                words = [0x01020304 * (place % 63 + 1) for place in range(model.unit // 4)]
                with swd.Session(swd.Target(model)) as session:
                    function(session, addr, words)
                self.has(model, words, addr)

    def test_each_access_is_lost(self):
        """Then the call starts over, after a reset where the page says so."""
        words = [0x11111111 * (place + 1) for place in range(6)]
        for family, function in functions().items():
            make, addr, is_reset = FAMILIES[family]
            whole = Accesses(make())
            function(whole, addr, words)
            for lost, is_made in ((lost, is_made) for lost in range(1, whole.count + 1) for is_made in (False, True)):
                with self.subTest(family, lost=lost, is_made=is_made):
                    model = make()
                    self.assertRaises(swd.RunFailed, function, Accesses(model, lost, is_made), addr, words)
                    if is_reset:
                        model.reset()
                    function(Accesses(model), addr, words)
                    self.has(model, words, addr)

    def test_what_a_write_does_twice(self):
        """As the page's table says."""
        nrf52, samd21, stm32g0 = controllers.Nrf52(), controllers.Samd21(), controllers.Stm32G0()
        found = functions()
        found["nrf52"](Accesses(nrf52), 0x7F000, WORDS)
        nrf52.write(0x4001E504, 1)
        nrf52.write(0x7F000, WORDS[0])
        self.has(nrf52, WORDS, 0x7F000)
        found["samd21"](Accesses(samd21), 0x3FF00, WORDS)
        samd21.write(0x41004000, 0xA504)
        self.has(samd21, WORDS, 0x3FF00)
        stm32g0.write(0x40022008, 0x45670123)
        self.assertRaises(swd.ConditionNotMet, found["stm32g0"], Accesses(stm32g0), 0x08005000, WORDS)
