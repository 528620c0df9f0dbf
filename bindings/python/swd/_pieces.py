"""A run in pieces, for a line that makes each burst as a whole."""
from typing import Any, List, NamedTuple, Optional, Sequence, Tuple

from ._accesses import Access, Answer, End, Report, made_report
from ._library import REST, LibraryOrPath
from ._planned import Planned
from ._runs import Run


class _Place(NamedTuple):
    """How far a run came: how many accesses the pieces before answered, and how many requests they sent; which piece is
    at hand."""

    answered: int
    requests: int
    piece: int
    run: Run


class PiecedRun(Run):
    """A run over a list that is cut: each piece is a run of its own, over the target that the one before left open."""

    def __init__(  # pylint: disable=super-init-not-called
        self, accesses: Tuple[Access, ...], ends: Sequence[int], tries: int, *, block: bool, opened: bool,
        library: LibraryOrPath,
    ) -> None:
        self.accesses, self.tries, self.opened, self.library = accesses, tries, opened, library
        self._ends, self._is_block = list(ends), block
        # The answers of the pieces before, and maybe of the one at hand.
        self._kept: List[Answer] = []
        self.step = self._step_on
        # It is replaced as a whole, since Ctrl-C may come at any time.
        self._place = _Place(0, 0, 0, self._piece(0, opened))

    def _piece(self, number: int, opened: bool) -> Run:
        accesses = self.accesses[self._ends[number - 1] if number else 0:self._ends[number]]
        return Run.of_checked(accesses, self.tries, self._is_block, opened, self.library)

    def _step_on(self, reply: int) -> Any:
        place = self._place
        cue = place.run.step(reply)
        if cue.kind != REST or place.run.ended is not End.ALL or self._is_last(place):
            return cue
        report = place.run.report()
        del self._kept[place.answered:]
        self._kept.extend(report.answers)
        count, requests = place.answered + len(report.answers), place.requests + report.requests
        self._place = _Place(count, requests, place.piece + 1, self._piece(place.piece + 1, True))
        return self._place.run.first()

    def _is_last(self, place: _Place) -> bool:
        return place.piece == len(self._ends) - 1

    def plan(self) -> Tuple[Planned, ...]:
        return self._place.run.plan()

    def doubt(self, planned: Optional[Tuple[Planned, ...]]) -> None:
        self._place.run.doubt(planned)

    def first(self) -> Any:
        return self._place.run.first()

    def answers(self, first: int) -> Tuple[Answer, ...]:
        place = self._place
        return (*self._kept[first:place.answered], *place.run.answers(max(first - place.answered, 0)))

    @property
    def continues(self) -> bool:
        return False

    @property
    def answered(self) -> int:
        return self._place.answered + self._place.run.answered

    @property
    def ended(self) -> Optional[End]:
        place = self._place
        return place.run.ended if place.run.ended is not End.ALL or self._is_last(place) else None

    def report(self) -> Report:
        place = self._place
        report = place.run.report()
        answers = (*self._kept[:place.answered], *report.answers)
        ended = End.LOST if report.ended is End.ALL and not self._is_last(place) else report.ended
        requests = place.requests + report.requests
        return made_report(answers, report.begun, requests, ended, report.identification, self.accesses)

    def only_word(self) -> Optional[int]:
        return None
