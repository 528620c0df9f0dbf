"""Plans of a run, and how much of one a packet makes."""
from typing import NamedTuple, Optional, Sequence, Tuple

# A read of RDBUFF, and the bits of a request.
RDBUFF = 0xBD
_AP, _READ = 0x02, 0x04
# The bytes before the requests of a packet, and before the words of its reply, and the most requests of one.
HEAD, _MOST_REQUESTS = 3, 255


class Planned(NamedTuple):
    """A transaction that comes next if each before it is OK: the eight bits of its request, and the word that it
    writes, 0 for a read."""

    request: int
    word: int

    @property
    def reads(self) -> bool:
        """Whether it is a read."""
        return bool(self.request & _READ)

    @property
    def posts(self) -> bool:
        """Whether it is a read of the access port, whose word a later read returns."""
        return self.request & (_AP | _READ) == _AP | _READ

    @property
    def reads_dp(self) -> bool:
        """Whether it is a read of the debug port, which returns its own word."""
        return self.request & (_AP | _READ) == _READ

    def leaves_posted(self, before: bool) -> bool:
        """Whether the word of an access port's read isn't fetched yet, behind this transaction, which was OK."""
        return self.posts if self.request & _AP else before and self.request != RDBUFF


class Beginning(NamedTuple):
    """The first transactions of a plan that one packet makes, and of how many requests: a read of RDBUFF behind a last
    read of the access port is none."""

    planned: Tuple[Planned, ...]
    requests: int


def longest_beginning(plan: Sequence[Planned], size: int, posted: bool) -> Optional[Beginning]:
    """Returns the longest beginning of a plan that one packet of this size makes, if there is one. `posted` says
    whether a read of the access port has a word that wasn't fetched.

    Behind a read of the access port, unless another follows, and behind a last write, the probe reads RDBUFF by itself.
    So a packet ends at a read of the debug port, or where that read of RDBUFF is planned. The probe drops the word of
    the packet's first read of the access port: there is none, if that is the word of a read before the packet."""
    best, length, back, behind = 0, HEAD, HEAD, False
    for place, it in enumerate(plan[:_MOST_REQUESTS]):
        if behind and it.request == RDBUFF:
            return Beginning(tuple(plan[:place + 1]), place)
        if behind != it.posts and (behind or posted):
            break
        length += 1 if it.reads else 5
        back += 4 if behind or it.reads_dp else 0
        if length > size or back + 4 > size:
            break
        behind, posted = it.posts, it.leaves_posted(posted)
        if it.reads_dp:
            best = place + 1
    return Beginning(tuple(plan[:best]), best) if best else None
