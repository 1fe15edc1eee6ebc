"""One session's dealings with the book: claim a share, record a block, give the ticket back.

Each is one turn at the book, so one transaction, in which the proved functions decide. A session decides nothing of its own: it asks
for one share after another until the book gives it one, and goes by what it is answered.
"""

from __future__ import annotations

from dataclasses import dataclass

from ..refusals import Refused
from .store import BlockNote, Census, Clash, Damage, Store, TicketNote, Turn

RENEWED = 4
"""A lease is renewed once less than this part of it, a quarter, is left."""

LEASE = 1800.0
"""The seconds of a lease where none is named. It is renewed every 1,350 seconds at the earliest, so a session uses up 1,984 tickets in
31 days, and 32 sessions 63,488 of the book's 65,535."""


@dataclass
class Claim:
    """What a session holds: a share by a ticket, which lapses at a tick, and the positions that are still to be recorded."""

    share: int
    ticket: int
    expiry: int
    tick: int
    """The tick of the last turn."""
    next: int
    last: int


@dataclass
class Waiting:
    """No share is to be had: the book is complete, or all that is left is held."""

    complete: bool
    ticks: int
    """Ticks until the first of the tickets lapses."""


class Session:
    """A session with a name, which people see in the report, and a lease of so many seconds."""

    def __init__(self, store: Store, census: Census, holder: str, lease: float = LEASE) -> None:
        self.store, self.census, self.holder = store, census, holder
        self.length = census.ticks(lease)
        self._lasts: list[int] = []

    def claim(self) -> Claim | Waiting:
        """The first share that the book gives: one that is free, or whose ticket has lapsed."""
        return self.store.turn(self.census, self._claim_any)

    def _claim_any(self, turn: Turn) -> Claim | Waiting:
        for share in range(1, turn.book.shares + 1):
            try:
                return self._claim(turn, share)
            except Refused as refusal:
                if refusal.number not in (55, 56):
                    raise
        expiries = [turn.book.expiry(share) for share in range(1, turn.book.shares + 1) if turn.book.ticket(share)]
        return Waiting(turn.book.report().complete, max(0, min(expiries, default=turn.tick) - turn.tick))

    def _claim(self, turn: Turn, share: int) -> Claim:
        ticket = turn.book.claim(turn.tick, share, self.length)
        turn.tickets.append(TicketNote(ticket, share, self.holder))
        # Where the library has accepted a claim the book is valid, and so are the numbers that the census has from it.
        self._lasts = self._lasts or [last for _, last in self.census.stretches()]
        return Claim(share, ticket, turn.book.expiry(share), turn.tick, turn.book.next(share), self._lasts[share - 1])

    def record(self, claim: Claim, text: bytes, given: int) -> Claim:
        """Records the next rows of the share together with their commits, and renews the lease where it is due: the claim after it.

        Refused 58, 59 or 60 where the ticket is no longer good for them; then nothing was written.
        """
        last = claim.next + given - 1

        def decide(turn: Turn) -> Claim:
            turn.book.commit_range(turn.tick, claim.ticket, claim.next, last)
            turn.blocks.append(BlockNote(claim.next, last, claim.ticket))
            return self._renewed(turn, claim, last + 1)

        try:
            return self.store.turn(self.census, decide, text)
        except Clash as clash:
            self._explain(claim, last, clash)
            raise

    def _renewed(self, turn: Turn, claim: Claim, position: int) -> Claim:
        """The claim after a commit. A lease is renewed by a release and a claim, which gives a new ticket; where the book has none
        left, the old one goes on until it lapses."""
        standing = Claim(claim.share, claim.ticket, claim.expiry, turn.tick, position, claim.last)
        if position > claim.last or RENEWED * (claim.expiry - turn.tick) >= self.length:
            return standing
        renewed = Turn(turn.book.copy(), turn.tick)
        try:
            renewed.book.release(turn.tick, claim.ticket)
            claim = self._claim(renewed, claim.share)
        except Refused as refusal:
            if refusal.number != 57:
                raise
            return standing
        turn.book, turn.tickets = renewed.book, turn.tickets + renewed.tickets
        return claim

    def _explain(self, claim: Claim, last: int, clash: Clash) -> None:
        """A row was there already. Where the book refuses the block, another session recorded it first; otherwise it is damage."""

        def ask(turn: Turn) -> None:
            turn.book.copy().commit_range(turn.tick, claim.ticket, claim.next, last)

        self.store.turn(self.census, ask)
        raise Damage(
            f"rows of positions {claim.next} to {last} stand in table {self.census.table} although the book says that none of them is"
            f" committed ({clash}). Somebody else wrote into the table. Run `kaldvemir audit`, and restore the database from a copy."
        ) from clash

    def release(self, claim: Claim) -> None:
        """Gives the ticket back. Refused 58 and 59 where it stands no longer."""
        self.store.turn(self.census, lambda turn: turn.book.release(turn.tick, claim.ticket))
