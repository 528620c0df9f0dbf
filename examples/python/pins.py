"""A line of the package `swd`: two GPIO lines of Linux, over the module `gpiod` 2 of the Python package index. Tested
over a stand-in of the module, not on real lines.
"""
import gpiod
from gpiod.line import Bias, Direction, Value


class Pins:
    """SWCLK and SWDIO at two lines of a chip, such as /dev/gpiochip0."""

    def __init__(self, chip, swclk, swdio):
        output = gpiod.LineSettings(direction=Direction.OUTPUT, output_value=Value.ACTIVE)
        self.driven = {swclk: output, swdio: output}
        self.released = {swclk: output, swdio: gpiod.LineSettings(direction=Direction.INPUT, bias=Bias.PULL_UP)}
        self.lines = gpiod.request_lines(chip, consumer="swd", config=self.driven)
        self.swclk, self.swdio, self.drives = swclk, swdio, True

    def drive(self, bit):
        self._turn(True)
        self.lines.set_value(self.swdio, Value.ACTIVE if bit else Value.INACTIVE)
        self._clock()

    def release(self):
        self.sample()

    def sample(self):
        self._turn(False)
        return self._clock()

    def _turn(self, drives):
        if drives != self.drives:
            self.lines.reconfigure_lines(self.driven if drives else self.released)
            self.drives = drives

    def _clock(self):
        self.lines.set_value(self.swclk, Value.INACTIVE)
        level = None if self.drives else int(self.lines.get_value(self.swdio) is Value.ACTIVE)
        self.lines.set_value(self.swclk, Value.ACTIVE)
        return level
