"""A worker: claims a share, lists it from its next position on in blocks, records each block, and goes on until the book is complete.

What it is refused is said and acted on: 58, 59 and 60 throw a block away, and the worker goes on with another share; 52, a clock that
went back, is waited out; 50, a book that is not valid, ends it. A database that does not answer is tried again and again: what had
been committed by then the book itself tells, since the worker then gives its ticket back and claims anew.
"""

from __future__ import annotations

import signal
import time
from collections.abc import Callable
from contextlib import suppress
from types import FrameType
from typing import TypeVar

from ..lists import Run
from ..refusals import Refused
from .session import Claim, Session, Waiting
from .store import Problem, Unreachable

BLOCK = 32_768
"""Rows of a block where no number is named."""
PROGRESS = 10.0
"""Seconds between two lines that say how far a worker is."""
LOOK = (0.1, 3.2)
"""Seconds after which a worker without a share asks again: at first, and at most. The pause doubles meanwhile."""
SHARE_OF_LEASE = 8
"""A block is to take at most this part of a lease: so there is time for several before it lapses."""

Answer = TypeVar("Answer")


class Stop:
    """Asked to stop by Ctrl-C or SIGTERM: what is being recorded is finished, then the ticket is given back. A second Ctrl-C ends the
    worker at once."""

    def __init__(self) -> None:
        self.signal: int | None = None

    def listen(self) -> None:
        for number in (signal.SIGINT, signal.SIGTERM):
            signal.signal(number, self._asked)

    def _asked(self, number: int, _: FrameType | None) -> None:
        if self.signal is not None:
            raise KeyboardInterrupt
        self.signal = number

    def __bool__(self) -> bool:
        return self.signal is not None

    def pause(self, seconds: float) -> None:
        """Waits so long, or until asked to stop. In short steps: a signal's handler may take no lock that this could hold just then."""
        end = time.monotonic() + seconds
        while not self and (left := end - time.monotonic()) > 0:
            time.sleep(min(left, 0.05))


class Worker:
    """A session at work. `say` is handed a line for people now and then, and how far it is every `progress` seconds."""

    def __init__(self, session: Session, stop: Stop, say: Callable[[str], None], block: int = BLOCK, progress: float = PROGRESS) -> None:
        self.session, self.stop, self.say, self.block, self.progress = session, stop, say, block, progress
        self._since, self._rows = time.monotonic(), 0
        self._pause = LOOK[0]

    def work(self) -> bool:
        """Works until the book is complete, or until asked to stop: whether it is complete."""
        while not self.stop:
            try:
                answer = self._asked(self.session.claim)
            except Unreachable:
                return False
            if isinstance(answer, Claim):
                self._pause = LOOK[0]
                self._share(answer)
            elif answer.complete:
                return True
            else:
                self._wait(answer)
        return False

    def _wait(self, waiting: Waiting) -> None:
        seconds = self.session.census.seconds(waiting.ticks)
        if self._pause == LOOK[0]:
            self.say(f"every share that is left is held; the first lease lapses in {seconds:g} s; waiting")
        self.stop.pause(self._pause)
        self._pause = min(2 * self._pause, LOOK[1])

    def _share(self, claim: Claim) -> None:
        """Lists a share from its next position on, as long as the ticket is good for it."""
        self.say(f"share {claim.share}: claimed with ticket {claim.ticket}, from position {claim.next} to {claim.last}")
        run = Run(self.session.census.size, claim.next - 1)
        try:
            while claim.next <= claim.last and not self.stop:
                begun = time.monotonic()
                rows = run.rows(min(self.block, claim.last - claim.next + 1))
                after = self._recorded(claim, rows.text, rows.given)
                if after is None:
                    break
                self._told(claim, after, rows.given)
                self._paced(time.monotonic() - begun)
                claim = after
        except (Problem, Refused):
            # Others need not wait for the lease of a worker that gives up.
            with suppress(Problem, Refused):
                self.session.release(claim)
            raise
        if claim.next <= claim.last:
            self._give_back(claim)

    def _told(self, before: Claim, after: Claim, given: int) -> None:
        self._rows += given
        passed = time.monotonic() - self._since
        if passed >= self.progress:
            self.say(f"share {after.share}: at position {after.next - 1:,} of {after.last:,}, {self._rows / passed:,.0f} rows a second")
            self._since, self._rows = time.monotonic(), 0
        if after.ticket != before.ticket:
            self.say(f"share {after.share}: lease renewed, ticket {after.ticket} in place of {before.ticket}")
        if after.next > after.last:
            self.say(f"share {after.share}: finished")

    def _paced(self, seconds: float) -> None:
        lease = self.session.census.seconds(self.session.length)
        if seconds * SHARE_OF_LEASE > lease and self.block > 1:
            self.block = max(1, self.block // 2)
            self.say(f"a block took {seconds:.1f} s of a lease of {lease:g} s: blocks of {self.block} rows from now on")

    def _recorded(self, claim: Claim, text: bytes, given: int) -> Claim | None:
        """The claim after recording a block; None where the block was thrown away."""
        try:
            return self._on_time(lambda: self.session.record(claim, text, given))
        except Refused as refusal:
            if refusal.number not in (58, 59, 60):
                raise
            last = claim.next + given - 1
            self.say(f"share {claim.share}: rows {claim.next} to {last} thrown away, {refusal}; going on with another share")
        except Unreachable as problem:
            self.say(f"share {claim.share}: {self._trouble(problem)}; the book will tell what it has recorded")
        return None

    def _trouble(self, problem: Unreachable) -> str:
        """What is wrong, and which sessions that were in the way have been ended."""
        return "; ".join([str(problem), *self.session.store.stalled()])

    def _give_back(self, claim: Claim) -> None:
        """Gives the ticket back: where the session has been asked to stop, or does not know whether its last block was recorded."""
        share = f"share {claim.share}: ticket {claim.ticket}"
        try:
            self._asked(lambda: self.session.release(claim))
            self.say(f"{share} given back")
        except Unreachable as problem:
            self.say(f"{share} could not be given back ({problem}); it lapses by itself")
        except Refused as refusal:
            if refusal.number not in (58, 59):
                raise
            self.say(f"{share} is not to be given back: {refusal}")

    def _asked(self, call: Callable[[], Answer]) -> Answer:
        """What the database answers, asked again while it cannot be reached; once only where the worker has been asked to stop."""
        pause = 0.25
        while True:
            try:
                self.session.store.reconnect()
                return self._on_time(call)
            except Unreachable as problem:
                if self.stop:
                    raise
                self.say(f"{self._trouble(problem)}; trying again in {pause:g} s")
                self.stop.pause(pause)
                pause = min(2 * pause, 15.0)

    def _on_time(self, call: Callable[[], Answer]) -> Answer:
        """What the call answers once the clock is where it has been: 52 is waited out."""
        while True:
            try:
                return call()
            except Refused as refusal:
                if refusal.number != 52:
                    raise
                behind = f"refused 52: the database's clock is {self._behind():g} s behind the latest call"
                if self.stop:
                    raise Unreachable(behind) from refusal
                self.say(f"{behind}; waiting for it")
                self.stop.pause(1.0)

    def _behind(self) -> float:
        snapshot = self.session.store.snapshot(self.session.census)
        return self.session.census.seconds(snapshot.book.latest - snapshot.tick)


def describe(refusal: Refused) -> Problem:
    """What a refusal that ends a worker means for its user."""
    if refusal.number == 50:
        return Problem(
            f"{refusal}. Something else than this program has written the book's row in kaldvemir_census. Nothing was altered. Stop all"
            " workers, run `kaldvemir audit`, and restore the database from a copy."
        )
    if refusal.number == 57:
        return Problem(
            f"{refusal}. Shares that are held now can still be finished. For the rest open another census of this size, with longer leases"
            " (`work --lease`)."
        )
    return Problem(str(refusal))
