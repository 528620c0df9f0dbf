"""Stand-ins of the module `gpiod` 2 and 1, as far as examples/python uses them: two lines of a chip, and a target
behind them. A value put on an input, and a read of an output, fail, as a kernel lets them."""
import enum
import types

SWCLK, SWDIO = 25, 24


class Value(enum.Enum):
    """The level of a line."""

    INACTIVE = 0
    ACTIVE = 1


class Direction(enum.Enum):
    """Whether a line is driven."""

    INPUT = 1
    OUTPUT = 2


class Bias(enum.Enum):
    """What holds a line that nobody drives."""

    PULL_UP = 1


class LineSettings:
    """What a line is asked to be."""

    def __init__(self, direction, output_value=None, bias=None):
        assert (direction is Direction.OUTPUT) == (output_value is Value.ACTIVE) == (bias is None)
        self.direction = direction


class Lines:
    """Requested lines. A cycle of the target is the falling edge of SWCLK."""

    def __init__(self, target, config):
        self.target, self.level = target, None
        self.values = {SWCLK: Value.ACTIVE, SWDIO: Value.ACTIVE}
        self.reconfigure_lines(config)

    def reconfigure_lines(self, config):
        """Makes each line an input or an output."""
        assert set(config) == {SWCLK, SWDIO}
        self.outputs = {line for line, settings in config.items() if settings.direction is Direction.OUTPUT}

    def set_value(self, line, value):
        """Drives an output."""
        assert line in self.outputs
        if line == SWCLK and self.values[line] is Value.ACTIVE and value is Value.INACTIVE:
            self.level = self.target.cycle(self.values[SWDIO].value if SWDIO in self.outputs else None)
        self.values[line] = value

    def get_value(self, line):
        """Reads an input."""
        assert line not in self.outputs
        return Value(self.level)


def modules_over(target):
    """The modules by their names, with this target behind the lines."""
    gpiod, line = types.ModuleType("gpiod"), types.ModuleType("gpiod.line")
    gpiod.LineSettings, gpiod.line = LineSettings, line
    gpiod.request_lines = lambda path, consumer, config: Lines(target, config)
    line.Bias, line.Direction, line.Value = Bias, Direction, Value
    return {"gpiod": gpiod, "gpiod.line": line}


class OldLine:
    """A line of version 1. A cycle of the target is the falling edge of SWCLK."""

    def __init__(self, chip, number):
        self.chip, self.number, self.output, self.level = chip, number, None, None

    def request(self, consumer, type, flags, default_val):  # pylint: disable=redefined-builtin
        """Takes the line as an output. SWDIO, which is released later, is pulled up."""
        assert self.output is None and (consumer, type, default_val) == ("swd", OLD_NAMES["LINE_REQ_DIR_OUT"], 1)
        assert flags == (OLD_NAMES["LINE_REQ_FLAG_BIAS_PULL_UP"] if self.number == SWDIO else 0)
        self.output, self.level = True, default_val

    def set_direction_output(self, value):
        """Drives the line."""
        assert self.output is False
        self.output, self.level = True, value

    def set_direction_input(self):
        """Releases the line."""
        assert self.output is True
        self.output = False

    def set_value(self, value):
        """Puts a level on an output."""
        assert self.output and value in (0, 1)
        if self.number == SWCLK and self.level and not value:
            data = self.chip.lines[SWDIO]
            self.chip.seen = self.chip.target.cycle(data.level if data.output else None)
        self.level = value

    def get_value(self):
        """Reads an input."""
        assert self.output is False
        return self.chip.seen


class OldChip:
    """A chip of version 1."""

    def __init__(self, target):
        self.target, self.seen = target, None
        self.lines = {number: OldLine(self, number) for number in (SWCLK, SWDIO)}

    def get_line(self, number):
        """Returns a line."""
        return self.lines[number]


OLD_NAMES = {"LINE_REQ_DIR_OUT": 3, "LINE_REQ_FLAG_BIAS_PULL_UP": 32}


def old_modules_over(target):
    """The modules of version 1 by their names, with this target behind the lines."""
    gpiod = types.ModuleType("gpiod")
    gpiod.Chip = lambda path: OldChip(target)
    vars(gpiod).update(OLD_NAMES)
    return {"gpiod": gpiod}
