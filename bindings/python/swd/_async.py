"""A line whose calls are coroutines, for asyncio."""
import asyncio
from dataclasses import replace
from typing import Any, Awaitable, Optional, Protocol

from ._accesses import End, Report
from ._cues import Cue, Drive, Release
from ._errors import LineFailed, NotResumable, RunStopped
from ._lines import REQUEST_REST, check_names, checked_levels
from ._runs import Run, failed, settling
from ._uses import Claim, use_of


class AsyncSequenceLine(Protocol):
    """`SequenceLine` with coroutines: what is said there of its calls holds of these. None of them is ever
    cancelled."""

    def drive(self, bits: int, count: int) -> Awaitable[object]:
        """Makes `count` clocks, at most 64, in which the host drives the low bits of `bits`."""

    def release(self, count: int) -> Awaitable[object]:
        """Makes `count` clocks, at most 64, in which the host doesn't drive SWDIO. Its level is ignored."""

    def sample(self, count: int) -> Awaitable[int]:
        """Makes `count` clocks, at most 33, in which the host doesn't drive SWDIO. Returns its levels before the rising
        edges."""


class AsyncSequences:
    """Performs runs over a line whose calls are coroutines. Make one of them for each line:

        line = swd.AsyncSequences(probe)
        run = swd.Run(accesses)
        try:
            report = await asyncio.wait_for(line.perform(run), 5)
        except asyncio.TimeoutError:
            report = await line.perform(swd.Run.resumed(accesses, run.report()))

    Where `perform` is cancelled, the call of the line that it awaits isn't: it goes on by itself, and the next
    `perform` begins once it has ended. So no reply stays unread, and no sequence is made in part."""

    def __init__(self, line: AsyncSequenceLine) -> None:
        check_names(line)
        self._line, self._use = line, use_of(id(line))
        # The call of the line that was made last.
        self._call: "Optional[asyncio.Future[Any]]" = None
        # How the last run ended, if there was one, and whether the line isn't known to be between two cues.
        self._last: Optional[End] = None
        self._inside = True

    async def perform(self, run: Run) -> Report:
        """Performs a run from its beginning, and returns its report, however it ended. If the run before ended early
        or was cancelled, and this one doesn't continue it, the target is brought to rest first.

        Raises `LineFailed` if the line raises an `Exception`, `RunStopped` if the target isn't brought to rest,
        `Reentered` if the line is in use, and `NotResumable` for a run that was begun: `Run.resumed` continues that
        one with its report."""
        claim = Claim()
        with claim:
            self._use.begin(claim)
            if run.is_begun:
                raise NotResumable("the run was begun: Run.resumed(accesses, run.report()) continues it")
            await self._finish()
            if self._last not in (None, End.ALL) and not run.continues:
                await self._settle(run)
            run.is_begun = True
            return await self._follow(run)

    async def _settle(self, run: Run) -> None:
        """Brings a target to rest, and opens it, before this run."""
        unbegun = replace(run.report(), requests=0)
        try:
            report = await self._follow(settling(run.tries, run.library))
        except LineFailed as failure:
            raise LineFailed(str(failure), unbegun) from failure.__cause__
        if report.ended is not End.ALL:
            raise RunStopped(f"the target wasn't brought to rest: the run for that ended {report.ended}", unbegun)

    async def _follow(self, run: Run) -> Report:
        self._last, inside = End.LOST, self._inside
        self._inside = True
        try:
            if run.continues and inside:
                await self._made(self._line.release(REQUEST_REST))
            cue = run.cue()
            while cue is not None:
                run.next(await self._reply(cue))
                cue = run.cue()
            flush = getattr(self._line, "flush", None)
            if flush is not None:
                await self._made(flush())
        except Exception as failure:  # pylint: disable=broad-except
            raise failed(run, LineFailed, failure) from failure
        report = run.report()
        self._last, self._inside = report.ended, False
        return report

    async def _reply(self, cue: Cue) -> int:
        """Makes the sequences of a cue, and returns its reply."""
        reply = 0
        for step in cue.sequences():
            if isinstance(step, Drive):
                await self._made(self._line.drive(step.bits, step.count))
            elif isinstance(step, Release):
                await self._made(self._line.release(step.count))
            else:
                reply = checked_levels(await self._made(self._line.sample(step.count)), step.count)
        return reply

    async def _made(self, call: Awaitable[Any]) -> Any:
        """Awaits a call of the line, which goes on where this is cancelled."""
        self._call = asyncio.ensure_future(call)
        return await asyncio.shield(self._call)

    async def _finish(self) -> None:
        """Awaits the end of a call that goes on since the run was cancelled that made it. How it ends doesn't matter:
        a run that continues takes its clocks for made or not."""
        if self._call is not None and not self._call.done():
            await asyncio.wait([self._call])
