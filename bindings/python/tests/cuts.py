"""A line that fails at any one of its calls, and what may be true of a target behind it: for test_cuts.py."""
import swd
from plain import PlainMemory, PlainTarget
from swd import BusFault, End, Value, Write, Written

BASE, WORDS = 0x20000000, 16


class Cable:
    """What the line of README.md is written over, in place of streams and of the modules `os` and `select`: a server of
    remote_bitbang at a plain target. Each call is counted, and one of them meets a failure.

    `fail` has it raise before the call with this number is made, or behind it. `late` keeps the replies of the call
    back until another one asks for more. After `gone` nothing replies any more."""

    KINDS = ("fails before", "fails after", "Ctrl-C before", "Ctrl-C after", "late", "gone")

    def __init__(self, target):
        self.target, self.sent, self.replies, self.kept = target, bytearray(), bytearray(), bytearray()
        self.drives = self.level = None
        self.calls, self.at, self.kind, self.is_gone = 0, None, None, False

    def fail(self, at, kind):
        """Has the call fail that comes after so many more."""
        self.calls, self.at, self.kind = 0, at, kind

    @property
    def has_failed(self):
        return self.at is None

    def _meets(self, *kinds):
        return self.at is not None and self.calls >= self.at and self.kind in kinds

    def _raise(self):
        self.at = None
        raise KeyboardInterrupt if self.kind.startswith("Ctrl-C") else OSError("unplugged")

    def _call(self, act):
        if self._meets("fails before", "Ctrl-C before"):
            self._raise()
        result = act()
        if self._meets("fails after", "Ctrl-C after"):
            self._raise()
        self.calls += 1
        return result

    def write(self, data):
        self._call(lambda: self.sent.extend(data))

    def flush(self):
        self._call(self._serve)

    def fileno(self):
        return 7

    def select(self, read, write, other, timeout):
        return self._call(lambda: ([read[0]] if self.replies else [], [], []))

    def read(self, *arguments):
        return self._call(lambda: self._taken(arguments[-1]))

    def _taken(self, count):
        taken = bytes(self.replies[:count])
        del self.replies[:count]
        return taken

    def _serve(self):
        if self._meets("gone"):
            self.at, self.is_gone = None, True
        for command in bytes(self.sent):
            self._obey(chr(command))
        self.sent.clear()
        if self._meets("late") and self.kept:
            self.at = None
        elif not self.is_gone:
            self.replies += self.kept
            self.kept.clear()

    def _obey(self, command):
        """A command of remote_bitbang: O and o drive SWDIO or don't, d to g set SWCLK and SWDIO, c asks for its
        level."""
        if command in "Oo":
            self.drives = command == "O"
        elif command == "c":
            level = self.target.drives
            self.kept += b"1" if level is None or level else b"0"
        else:
            number = "defg".index(command)
            if number & 2 and not self.is_gone:
                self.target.cycle(number & 1 if self.drives else None)


def probe_over(bitbang):
    """The line of README.md by sequences. They are queued until the next sample, and made as a whole or not at all."""

    class Probe(bitbang):
        """Drops the replies of a sample that failed, as a line of clocks does."""

        def __init__(self, there, back):
            super().__init__(there, back)
            self.queue = b""

        def drive(self, bits, count):
            self.queue += b"O" + b"".join(b"eg" if bits >> place & 1 else b"df" for place in range(count))

        def release(self, count):
            self.queue += b"o" + b"df" * count

        def sample(self, count):
            self.make(b"o" + b"dcf" * count, True)
            levels = b""
            while len(levels) < count:
                reply = self._replies(self.timeout)
                if not reply:
                    raise TimeoutError(f"{len(levels)} of {count} replies came")
                levels += reply
            self.owes = False
            return sum((level & 1) << place for place, level in enumerate(levels))

        def flush(self):
            """Makes what is queued."""
            self.make(b"", self.owes)

        def make(self, more, owes):
            """Sends the queue, behind which a reply is owed or isn't."""
            queued, self.queue = self.queue + more, b""
            self._catch_up()
            self.owes = owes
            self.there.write(queued)
            self.there.flush()

    return Probe


class Bench:
    """A session over the line of README.md, or by sequences, and what is known of the memory behind it. Each written
    word is another one, so that the memory's log tells how often it was written."""

    def __init__(self, program, by_sequences=False):
        names = {}
        exec(program, names)  # pylint: disable=exec-used
        self.memory = PlainMemory(BASE, WORDS, 1 << 20)
        self.cable = Cable(PlainTarget(self.memory))
        names.update(os=self.cable, select=self.cable)
        self.closed = names.get("OutOfStep")
        kind = names["RemoteBitbang"]
        made = (probe_over(kind) if by_sequences else kind)(self.cable, self.cable)
        self.session = swd.Session(swd.Sequences(made) if by_sequences else made)
        self.fresh = iter(range(0x1001, 1 << 32))
        self.session.read(BASE)

    def list(self):
        return [Write(BASE, next(self.fresh)), swd.Read(BASE + 4), Write(BASE + 8, next(self.fresh)), swd.Read(BASE)]

    def words(self, count):
        return b"".join(next(self.fresh).to_bytes(4, "little") for _ in range(count))

    def writes(self):
        return [entry[1:] for entry in self.memory.log if entry[0] == "w"]


def writes_of(accesses):
    """The addresses and words of the writes among accesses."""
    return [(access.addr, access.word) for access in accesses if isinstance(access, Write)]


def unsound(accesses, report, before, writes):
    """Says what is false in a report of these accesses, over a memory with these words before, and these writes to
    it."""
    words, done = dict(before), len(report.answers)
    for access, answer in zip(accesses, report.answers):
        if isinstance(access, Write):
            words[access.addr] = access.word
        wanted = Written() if isinstance(access, Write) else Value(words[access.addr])
        if answer != wanted:
            return f"{access}: {answer} in place of {wanted}"
    for index, access in enumerate(accesses):
        if isinstance(access, Write):
            times = writes.count((access.addr, access.word))
            least, most = (1, 1) if index < done else (0, 1) if index < done + report.begun else (0, 0)
            if not least <= times <= most:
                return f"{access}, {index} of {done} answered and {report.begun} in flight, was written {times} times"
    foreign = [write for write in writes if write not in writes_of(accesses)]
    if foreign:
        return f"{foreign[0][1]:08x} was written to {foreign[0][0]:08x}"
    if report.ended is End.ALL and (done != len(accesses) or BusFault() in report.answers):
        return "not every access was answered"
    return None
