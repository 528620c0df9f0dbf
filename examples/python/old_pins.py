"""The line of pins.py over the module `gpiod` 1, which is Debian 12's python3-libgpiod. Tested over a stand-in of the
module, not on real lines.
"""
import gpiod


class OldPins:
    """The same over the module gpiod 1."""

    def __init__(self, chip, swclk, swdio):
        self.chip = gpiod.Chip(chip)
        self.swclk, self.swdio, self.drives = self.chip.get_line(swclk), self.chip.get_line(swdio), True
        self.swclk.request("swd", gpiod.LINE_REQ_DIR_OUT, 0, 1)
        self.swdio.request("swd", gpiod.LINE_REQ_DIR_OUT, gpiod.LINE_REQ_FLAG_BIAS_PULL_UP, 1)

    def drive(self, bit):
        if self.drives:
            self.swdio.set_value(bit)
        else:
            self.swdio.set_direction_output(bit)
            self.drives = True
        self._clock()

    def release(self):
        self.sample()

    def sample(self):
        if self.drives:
            self.swdio.set_direction_input()
            self.drives = False
        return self._clock()

    def _clock(self):
        self.swclk.set_value(0)
        level = None if self.drives else self.swdio.get_value()
        self.swclk.set_value(1)
        return level
