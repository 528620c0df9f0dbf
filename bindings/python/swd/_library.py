"""The shared library: its structs, its functions, and the search for it."""
import ctypes
import os
import warnings
from typing import Any, Dict, Iterator, List, Optional, Tuple, Union

from ._errors import LibraryMismatch, LibraryNotFound, LibraryNotProved


def _struct(name: str, *fields: Tuple[str, Any]) -> Any:
    return type(name, (ctypes.Structure,), {"_fields_": list(fields)})


_u8, _u32, _u64 = ctypes.c_uint8, ctypes.c_uint32, ctypes.c_uint64


def _bytes(names: str) -> List[Tuple[str, Any]]:
    return [(name, _u8) for name in names.split()]


# As swd.h declares them.
OutcomeStruct = _struct("OutcomeStruct", ("word", _u32), ("kind", _u8))
JobStruct = _struct("JobStruct", *_bytes("kind place error damaged"))
StateStruct = _struct("StateStruct", ("outcome", OutcomeStruct), ("job", JobStruct), *_bytes("kind phase"))
TaskStruct = _struct("TaskStruct", ("addr", _u32), ("word", _u32), ("kind", _u8))
ContentStruct = _struct("ContentStruct", ("word", _u32), ("known", _u8))
EngineStruct = _struct(
    "EngineStruct", ("requests", _u64), ("state", StateStruct), ("task", TaskStruct), ("tar", ContentStruct),
    ("tries", _u32), ("events", _u32), *_bytes("aims bursts ahead begun stray"),
)
CueStruct = _struct(
    "CueStruct", ("bits", _u64), ("ones", _u32), ("zeros", _u32), ("undriven", _u32), ("outcome", OutcomeStruct),
    *_bytes("kind request with_switch begun"),
)
AccessStruct = _struct("AccessStruct", ("addr", _u32), ("word", _u32), ("write", _u8))
DecoderStruct = _struct("DecoderStruct", ("fed", _u64), ("run", _u64), ("bits", _u64), *_bytes("mode one len"))
ItemStruct = _struct(
    "ItemStruct", ("count", _u64), ("bits", _u64), ("word", _u32), *_bytes("kind request ack parity_ok"),
)
WireLineStruct = _struct("WireLineStruct", ("bits", _u64), *_bytes("kind reg flips flip"))
FrameStruct = _struct("FrameStruct", ("line", WireLineStruct), *_bytes("kind place byte reply"))
PendingStruct = _struct("PendingStruct", ("word", _u32), ("kind", _u8))
PortStruct = _struct(
    "PortStruct", ("tar", ContentStruct), ("buffer", ContentStruct), ("last_returned", ContentStruct),
    ("pending", PendingStruct), ("filler", _u32),
    *_bytes("wrap late reset sticky_error write_error read_ok debug_power system_power power_up"),
    *_bytes("apsel apbanksel dpbanksel increments csw_upper"),
)
TargetStruct = _struct("TargetStruct", ("cycles", _u64), ("frame", FrameStruct), ("target", PortStruct), ("waits", _u8))
TransferStruct = _struct("TransferStruct", ("addr", _u32), ("word", _u32), ("kind", _u8))
RunStruct = _struct(
    "RunStruct", ("requests", _u64), ("engine", EngineStruct), ("end", OutcomeStruct), ("answered", _u32),
    *_bytes("begun stage"),
)
PlannedStruct = _struct("PlannedStruct", ("word", _u32), ("request", _u8))
HeldStruct = _struct("HeldStruct", ("places", _u64), ("word", _u32), ("kind", _u8))
IntervalStruct = _struct("IntervalStruct", ("first", _u32), *_bytes("more known"))
WorldStruct = _struct(
    "WorldStruct", ("faults", _u64), ("buffer", HeldStruct), ("last_returned", HeldStruct), ("tar", IntervalStruct),
    *_bytes("reset sticky_error write_error read_ok debug system mem_ap bank0 increments pending awaits"),
)
CheckStruct = _struct(
    "CheckStruct", ("worlds", WorldStruct * 64), ("identification", HeldStruct), ("began", _u64),
    ("faults_before", _u64), ("gaps", _u64), ("broken", _u64), ("crowded", _u64), ("select", _u32),
    *_bytes("count overfull opening clean has_began in_gap stray rule is_crowded"),
)
VerdictStruct = _struct(
    "VerdictStruct", ("place", _u64), ("began", _u64), ("faults", _u64), ("gaps", _u64),
    *_bytes("kind rule has_began"),
)
_CROSSING = (
    ("engine", EngineStruct), ("cue", CueStruct), ("access", AccessStruct), ("decoder", DecoderStruct),
    ("item", ItemStruct), ("target", TargetStruct), ("transfer", TransferStruct),
)
_Crossing = Tuple[Tuple[str, Any], ...]


def _layout(crossing: _Crossing) -> Any:
    """Returns a struct of these structs, and of their sizes behind them."""
    sizes = ((f"{name}_size", _u64) for name, _ in (*crossing, ("layout", None)))
    return _struct("_Layout", *crossing, *sizes)


# Each function that writes a layout, with its structs and the number of their first field.
LAYOUTS = (
    ("swd_layout", _CROSSING),
    ("swd_run_layout", (("run", RunStruct),)),
    ("swd_plan_layout", (("planned", PlannedStruct),)),
    ("swd_check_layout", (("world", WorldStruct), ("check", CheckStruct), ("verdict", VerdictStruct))),
)

# Kinds of cues.
REST, LEAD, ASK, TAKE, GIVE, PASS, REFUSED = 0, 1, 2, 3, 4, 5, 255
# Kinds of outcomes.
VALUE, WRITTEN, BUS_FAULT, WRONG_ID = 2, 3, 4, 8
# The most transactions of a plan.
MOST_PLANNED = 128
# The level that says that the host drives none, and what a target returns in place of a bit.
RELEASED = 2
WANTS = 2
WANTS_READ, WANTS_WRITE = 1, 2
# Three bits and 33 bits of a line that nobody drives.
SILENCE = {ASK: 0x7, TAKE: 0x1_FFFF_FFFF}

_run = ctypes.POINTER(RunStruct)
# The result and the arguments of each function. Where the second is None, the arguments are passed as objects of
# ctypes: to convert others would take longer than the call, and these are called at each cue or list.
_FUNCTIONS: Dict[str, Tuple[Any, Optional[Tuple[Any, ...]]]] = {
    "swd_layout": (None, (ctypes.c_void_p,)),
    "swd_run_layout": (None, (ctypes.c_void_p,)),
    "swd_plan_layout": (None, (ctypes.c_void_p,)),
    "swd_check_layout": (None, (ctypes.c_void_p,)),
    "swd_version": (_u32, ()),
    "swd_run_new": (None, (_run, _u32)),
    "swd_run_blocks": (None, (_run, _u32)),
    "swd_run_opened": (CueStruct, None),
    "swd_run_again": (ctypes.c_bool, (_run, _u32)),
    "swd_run_cue": (CueStruct, (_run,)),
    "swd_run_next": (CueStruct, None),
    "swd_run_plan": (_u32, None),
    "swd_decoder_new": (None, (ctypes.POINTER(DecoderStruct),)),
    "swd_decoder_take": (_u8, (ctypes.POINTER(DecoderStruct), _u64, _u8)),
    "swd_decoder_due": (ctypes.c_bool, (ctypes.POINTER(DecoderStruct), ctypes.POINTER(ItemStruct))),
    "swd_decoder_last": (ctypes.c_bool, (ctypes.POINTER(DecoderStruct), ctypes.POINTER(ItemStruct))),
    "swd_target_new": (None, (ctypes.POINTER(TargetStruct), _u8, _u32)),
    "swd_target_cycle": (_u8, (ctypes.POINTER(TargetStruct), _u8)),
    "swd_target_wants": (TransferStruct, (ctypes.POINTER(TargetStruct),)),
    "swd_target_settle": (ctypes.c_bool, (ctypes.POINTER(TargetStruct), _u8, _u32)),
    "swd_target_hold": (ctypes.c_bool, (ctypes.POINTER(TargetStruct), _u8)),
    "swd_check_new": (ctypes.c_bool, (ctypes.POINTER(CheckStruct), _u8, _u8)),
    "swd_check_watch": (ctypes.c_bool, (ctypes.POINTER(CheckStruct), ctypes.POINTER(ItemStruct), _u64)),
    "swd_check_verdict": (ctypes.c_bool, (ctypes.POINTER(CheckStruct), ctypes.POINTER(VerdictStruct))),
}


NAME = "libswd_c.so"
# By which programs find the library: its soname, with the number of release/shared. NAME is the linker's.
_SONAME = "libswd_c.so.0"
# Set in swd_version() of a library that `./swd --library` compiled without a proof.
_UNPROVED = 0x8000_0000


class Library:
    """The shared library, loaded and checked.

    `path` names the file; without it the library is searched as this package's documentation says. Raises
    `LibraryNotFound` if none can be loaded. Raises `LibraryMismatch` if a function is missing, or if a struct's size or
    a field's offset differs from this package. Warns with `LibraryNotProved` of one that was compiled without a proof:
    `is_proved` is False then."""

    def __init__(self, path: Union[None, str, "os.PathLike[str]"] = None) -> None:
        self.path, self._functions = _load(path)
        for name, (result, arguments) in _FUNCTIONS.items():
            try:
                function = getattr(self._functions, name)
            except AttributeError:
                raise LibraryMismatch(f"{self.path} has no function {name}") from None
            function.restype, function.argtypes = result, arguments
        self._check_layout()
        self.is_proved = not self._functions.swd_version() & _UNPROVED
        if not self.is_proved:
            why = f"the C library isn't proved: ./swd --library --prove proves it ({self.path})"
            warnings.warn(why, LibraryNotProved, stacklevel=2)

    def _check_layout(self) -> None:
        """Compares every struct's size and every field's offset with those of the library."""
        for function, crossing in LAYOUTS:
            self.check_structs(function, crossing)

    def check_structs(self, function: str, crossing: _Crossing) -> None:
        """Compares these structs with those that this function of the library writes."""
        # More than the library's may need, should it be another one.
        room = (_u64 * 1024)()
        getattr(self._functions, function)(ctypes.cast(room, ctypes.c_void_p))
        struct = _layout(crossing)
        layout = struct.from_buffer_copy(room)
        fields = [leaf for name, _ in crossing for leaf in leaves(name, getattr(layout, name))]
        # The numbers of a run begin with those of its engine.
        fields.sort(key=lambda leaf: not leaf[0].startswith("run.engine."))
        self._check_numbers(fields)
        for name, _ in crossing:
            for path, element in _elements(name, getattr(layout, name)):
                self._check_numbers(list(leaves(path, element)))
        for name, kind in (*crossing, ("layout", struct)):
            size = getattr(layout, f"{name}_size")
            if size != ctypes.sizeof(kind):
                raise LibraryMismatch(f"{self.path}: struct swd_{name} has {size} bytes, here {ctypes.sizeof(kind)}")

    def _check_numbers(self, fields: List[Tuple[str, int, int]]) -> None:
        """Compares these fields with the numbers from 1 on."""
        for number, (path, size, value) in enumerate(fields, 1):
            if value != int.from_bytes(bytes([number]) * size, "little"):
                raise LibraryMismatch(f"{self.path}: the field {path} is at another offset")


def leaves(path: str, value: Any) -> Iterator[Tuple[str, int, int]]:
    """Yields the integer fields of a struct but for those of arrays, in order: path, size in bytes, value."""
    for name, kind in value._fields_:
        field = getattr(value, name)
        if isinstance(field, ctypes.Structure):
            yield from leaves(f"{path}.{name}", field)
        elif not isinstance(field, ctypes.Array):
            yield f"{path}.{name}", ctypes.sizeof(kind), field


def _elements(path: str, value: Any) -> Iterator[Tuple[str, Any]]:
    """Yields the elements of the arrays in a struct, which are structs: path, element."""
    for name, _ in value._fields_:
        field = getattr(value, name)
        if isinstance(field, ctypes.Array):
            yield from ((f"{path}.{name}[{place}]", element) for place, element in enumerate(field))


def _places() -> List[str]:
    """Where the library is searched: beside the package, where `./swd --library` leaves it, and where the system's
    loader searches a bare name. No compiler or linker is asked."""
    here = os.path.dirname(os.path.abspath(__file__))
    out = os.path.normpath(os.path.join(here, "..", "..", "..", "crates", "swd_c", "out"))
    made = [os.path.join(out, kind, "lib", NAME) for kind in ("proved", "unproved")]
    return [os.path.join(here, NAME), *filter(os.path.exists, made), _SONAME, NAME]


def _load(path: Union[None, str, "os.PathLike[str]"]) -> Tuple[str, ctypes.PyDLL]:
    if path is None:
        path = os.environ.get("SWD_LIBRARY")
    tried = [os.fspath(path)] if path else _places()
    reasons = []
    for name in tried:
        try:
            # A call takes less than a microsecond, and leaves the interpreter to no other thread.
            return name, ctypes.PyDLL(name)
        except OSError as reason:
            reasons.append(str(reason))
    how = "./swd --library, in the repository of swd, makes one in about a minute; SWD_LIBRARY may name one"
    raise LibraryNotFound(f"no library: {how}. Tried: {'; '.join(reasons)}")


_found: Optional[Library] = None
LibraryOrPath = Union[None, str, "os.PathLike[str]", Library]


def library_functions(given: LibraryOrPath) -> Any:
    """Returns the functions of this library, or of the one that the search finds."""
    global _found
    if isinstance(given, Library):
        return given._functions
    if given is not None:
        return Library(given)._functions
    if _found is None:
        _found = Library()
    return _found._functions
