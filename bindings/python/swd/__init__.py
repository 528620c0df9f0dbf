"""Serial Wire Debug (SWD): a host, a simulated target, a trace decoder and a checker of traces, over libswd_c.

    import swd

    for item in swd.decode("0" * 8 + "1" * 56 + "00"):
        print(item)                                   # idle 8, reset 56, idle 2

    with swd.Session(line) as session:                # your adapter: one clock of SWCLK per call
        session.write(0x20000000, 0xdeadbeef)
        print(hex(session.read(0x20000000)))          # 0xdeadbeef

The library implements the protocol and is proved; docs/C.md of its repository lists what is proved of each function.
The loop over the accesses of a list is the library's. This package is tested, not proved: it performs on your line what
the library's cues say, passes back what it saw, and converts structs to objects.

What fails is an exception. One that is raised after a run began has its `report`: which accesses were done, and how
many more were in flight.

Numbers: addresses are in bytes, words have 32 bits, and a bit is 0 or 1. Bits are in time order.

Memory: Python owns every struct that the library works on. The library keeps no pointer, calls nothing back and
allocates nothing, so nothing has to be closed or freed.

Threads: objects are independent of each other. Use one object in one thread at a time. Two calls that would use one
line at once are refused.

The library, libswd_c.so, is searched in this order; `Library` checks it once, field by field, before its first use:

    1. the argument `library` of each class and function: a `Library`, or a path
    2. the path in the environment variable SWD_LIBRARY
    3. libswd_c.so in the folder of this package
    4. in a clone of the repository, the one that ./swd --library made: the proved one, then that without a proof
    5. libswd_c.so.0, then libswd_c.so, where the system's loader finds it
"""
from ._accesses import (
    MOST_ACCESSES, Access, Answer, BusFault, End, Read, Report, Value, Write, Written, block,
)
from ._async import AsyncSequenceLine, AsyncSequences
from ._checking import Checker, Verdict
from ._core import Core, CoreState
from ._core_errors import (
    CoreAsleep, CoreDidNotHalt, CoreError, CoreLockedUp, CoreNotHalted, DebugLocked, NoBreakpointLeft, RegisterNotReady,
)
from ._core_words import CoreIdentification
from ._cues import Ask, Cue, Drive, Give, Lead, Pass, Release, Sample, Sequence, Take
from ._decoding import Bits, Cut, Decoder, Idle, Item, Junk, Reset, Switch, Transaction, decode, trace_bits
from ._errors import (
    AccessFaulted, BusError, CallbackFailed, ConditionNotMet, DecoderFinished, ImageDiffers, ImageInterrupted,
    ImageStopped, Interrupted, LibraryMismatch, LibraryNotFound, LibraryNotProved, LibraryRefused, LineFailed, NotABit,
    NotALine, NotAnAccess, NotAnItem, NotBytes, NotResumable, OutOfRange, ProbeFailed, Reentered, RunEnded, RunFailed,
    RunStopped, SwdError, TooManyAccesses, Unaligned, report_of,
)
from ._hosts import Host, Session
from ._identities import Identification, Opening
from ._library import Library
from ._lines import Line, SequenceLine, Sequences
from ._packets import Packets
from ._planned import Planned
from ._probes import Probe
from ._runs import Run
from ._target import Bus, Target

__version__ = "0.1.0"
__all__ = [
    "Access", "AccessFaulted", "Answer", "Ask", "AsyncSequenceLine", "AsyncSequences", "Bits", "Bus", "BusError",
    "BusFault", "CallbackFailed", "Checker", "ConditionNotMet", "Core", "CoreAsleep", "CoreDidNotHalt", "CoreError",
    "CoreIdentification", "CoreLockedUp", "CoreNotHalted", "CoreState", "Cue", "Cut", "DebugLocked", "Decoder",
    "DecoderFinished", "Drive", "End", "Give", "Host", "Idle", "Identification", "ImageDiffers", "ImageInterrupted",
    "ImageStopped", "Interrupted", "Item", "Junk", "Lead", "Library", "LibraryMismatch", "LibraryNotFound",
    "LibraryNotProved", "LibraryRefused", "Line", "LineFailed", "MOST_ACCESSES", "NoBreakpointLeft", "NotABit",
    "NotALine", "NotAnAccess", "NotAnItem", "NotBytes", "NotResumable", "Opening", "OutOfRange", "Packets", "Pass",
    "Planned", "Probe", "ProbeFailed", "Read",
    "Reentered", "RegisterNotReady", "Release", "Report", "Reset", "Run", "RunEnded", "RunFailed", "RunStopped",
    "Sample", "Sequence", "SequenceLine", "Sequences", "Session", "SwdError", "Switch", "Take", "Target",
    "TooManyAccesses", "Transaction", "Unaligned", "Value", "Verdict", "Write", "Written", "block", "decode",
    "report_of", "trace_bits",
]
