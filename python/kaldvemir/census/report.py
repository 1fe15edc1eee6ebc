"""How far a census is: each share with its positions, what is done, who holds it and for how long; the rate and the time to go.

The numbers are the book's, read without a lock; what is committed and whether all is, is the proved report. On a terminal it is a
table with bars, otherwise plain lines.
"""

from __future__ import annotations

from typing import NamedTuple

from rich.console import Console, Group, RenderableType
from rich.progress_bar import ProgressBar
from rich.table import Table
from rich.text import Text

from .._library import MAX_TICKETS
from ..lists import count
from .store import Snapshot


class Share(NamedTuple):
    """A share as people see it."""

    number: int
    first: int
    last: int
    done: int
    state: str
    """finished, free, held or lapsed."""
    holder: str
    left: float
    """The seconds that its lease still holds; below 0 where it has lapsed."""

    @property
    def size(self) -> int:
        return self.last - self.first + 1


class Report(NamedTuple):
    """A census as people see it."""

    snapshot: Snapshot
    committed: int
    total: int
    complete: bool
    rate: float | None
    """Positions a second, over the last five minutes."""
    shares: list[Share]

    @property
    def to_go(self) -> float | None:
        """The seconds that are left at this rate."""
        return (self.total - self.committed) / self.rate if self.rate else None

    @property
    def tickets_left(self) -> int:
        return MAX_TICKETS - self.snapshot.book.issued


def report(snapshot: Snapshot) -> Report:
    """The report of a moment. Refused 50 where the book is not valid."""
    answer = snapshot.book.report()
    until = snapshot.until if answer.complete else snapshot.now
    rate = None
    if snapshot.recorded and snapshot.since is not None and until is not None:
        rate = snapshot.recorded / max(until - snapshot.since, 0.001)
    shares = [_share(snapshot, k, *ends) for k, ends in enumerate(snapshot.census.stretches(), 1)]
    return Report(snapshot, answer.committed, count(snapshot.census.size), answer.complete, rate, shares)


def _share(snapshot: Snapshot, number: int, first: int, last: int) -> Share:
    book = snapshot.book
    ticket, left = book.ticket(number), book.expiry(number) - snapshot.tick
    if not ticket:
        state = "finished" if book.next(number) > last else "free"
        return Share(number, first, last, book.next(number) - first, state, "", 0.0)
    holder = snapshot.holders.get(ticket, f"ticket {ticket}")
    state = "held" if left > 0 else "lapsed"
    return Share(number, first, last, book.next(number) - first, state, holder, snapshot.census.seconds(left))


def lasting(seconds: float | None) -> str:
    """A time in words: 4 s, 12:30 min, 3:20 h, 5.2 days."""
    if seconds is None:
        return "unknown"
    if seconds < 60:
        return f"{seconds:.0f} s"
    if seconds < 3600:
        return f"{seconds // 60:.0f}:{seconds % 60:02.0f} min"
    if seconds < 2 * 86400:
        return f"{seconds // 3600:.0f}:{seconds % 3600 // 60:02.0f} h"
    return f"{seconds / 86400:,.1f} days"


def headline(report: Report) -> str:
    """The census in a line."""
    census = report.snapshot.census
    share = 100 * report.committed / report.total
    state = "complete" if report.complete else f"{lasting(report.to_go)} to go"
    rate = f"{report.rate:,.0f} a second" if report.rate else "nothing in the last five minutes"
    return (
        f"census {census.id}, size {census.size}: {report.committed:,} of {report.total:,} positions ({share:.1f} %), {rate}, {state};"
        f" {report.tickets_left:,} tickets left"
    )


def standing(share: Share) -> str:
    """Who has a share, and for how long."""
    if share.state == "held":
        return f"held by {share.holder}, {lasting(share.left)} left"
    if share.state == "lapsed":
        return f"lapsed {lasting(-share.left)} ago, was held by {share.holder}"
    return share.state


def plain(report: Report) -> str:
    """The report as plain lines."""
    lines = [headline(report)]
    for share in report.shares:
        lines.append(
            f"share {share.number}: positions {share.first:,} to {share.last:,}, {share.done:,} of {share.size:,} done, {standing(share)}"
            if share.size
            else f"share {share.number}: empty"
        )
    return "\n".join(lines)


def drawn(report: Report) -> RenderableType:
    """The report as a table with bars."""
    table = Table(box=None, pad_edge=False)
    for name, align in (("share", "right"), ("positions", "left"), ("done", "right"), ("", "left"), ("", "left")):
        table.add_column(name, justify=align, no_wrap=True)  # type: ignore[arg-type]
    for share in report.shares:
        table.add_row(
            str(share.number),
            f"{share.first:,}–{share.last:,}" if share.size else "none",
            f"{share.done:,}",
            ProgressBar(total=max(share.size, 1), completed=share.done if share.size else 1, width=24),
            Text(standing(share), style="red" if share.state == "lapsed" else ""),
        )
    whole = ProgressBar(total=report.total, completed=report.committed, width=24)
    table.add_row("all", f"1–{report.total:,}", f"{report.committed:,}", whole, "complete" if report.complete else "")
    return Group(Text(headline(report)), table)


def show(report: Report, console: Console) -> None:
    if console.is_terminal:
        console.print(drawn(report))
    else:
        print(plain(report), flush=True)
