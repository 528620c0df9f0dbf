"""Which call uses a line."""
import threading
import weakref
from typing import Hashable, Optional

from ._errors import Reentered

# What a call holds from its beginning to its end. It is left by the interpreter itself, with no place for Ctrl-C.
Claim = threading.Lock
# Held while a claim is compared and replaced, also by a handler of a signal that comes there.
_guard = threading.RLock()


class Use:
    """The use of a line, which all hosts over this line share. It ends with the last of them."""

    def __init__(self) -> None:
        self._claim: Optional[threading.Lock] = None

    def begin(self, claim: threading.Lock) -> None:
        """Has the call use the line that holds this claim, until it leaves it. Raises `Reentered` if another call
        does."""
        with _guard:
            if self._claim is not None and self._claim.locked():
                raise Reentered("the line is in use by another call, which would lose its place on it")
            self._claim = claim


_uses: "weakref.WeakValueDictionary[Hashable, Use]" = weakref.WeakValueDictionary()


def use_of(line: Hashable) -> Use:
    """Returns the use of the line with this key, which has to be that of no other line while its use is kept."""
    with _guard:
        return _uses.setdefault(line, Use())
