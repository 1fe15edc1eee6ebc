"""Turns at the book: what a database keeps of one, and what a session makes of its lease."""

from __future__ import annotations

import threading
import time

import pytest

import kaldvemir
from kaldvemir import Book, Refused
from kaldvemir.census import Turn, connect
from kaldvemir.census.session import LEASE, Claim, Session, Waiting
from kaldvemir.census.store import Census


def opened(database: str, size: int = 9, shares: int = 4, tick_ms: int = 50):
    store = connect(database, create=True, patience=10)
    return store, store.open(size, shares, tick_ms)


def seen(store, census) -> Book:
    return store.snapshot(census).book


def test_a_turn_keeps_every_number_of_the_book(database):
    store, census = opened(database, size=24, shares=32)

    def decide(turn: Turn) -> Book:
        for share in range(1, 33):
            ticket = turn.book.claim(turn.tick, share, 1000 + share)
            turn.book.commit_range(turn.tick, ticket, turn.book.next(share), turn.book.next(share) + 10 * share)
        return turn.book.copy()

    left = store.turn(census, decide)
    assert seen(store, census) == left and left.report().committed == sum(10 * share + 1 for share in range(1, 33))
    assert connect(database).snapshot(census).book == left


def test_a_turn_that_raises_leaves_nothing(database):
    store, census = opened(database)
    before = seen(store, census)
    text = kaldvemir.Run(9).rows(3).text

    def decide(turn: Turn) -> None:
        ticket = turn.book.claim(turn.tick, 1, 10)
        turn.book.commit_range(turn.tick, ticket, 1, 3)
        raise Refused(60)

    with pytest.raises(Refused):
        store.turn(census, decide, text)
    assert seen(store, census) == before
    with store.reading(census) as reading:
        assert reading.positions()[0] == 0


def test_the_clock_is_read_after_the_lock(database):
    store, census = opened(database, tick_ms=1)
    other = connect(database, patience=10)
    held, ticks = threading.Event(), []

    def hold() -> None:
        # A store of its own: SQLite's connections stay in their thread.
        mine = connect(database, patience=10)

        def wait(turn: Turn) -> None:
            held.set()
            time.sleep(0.6)
            ticks.append(turn.tick)

        mine.turn(census, wait)

    thread = threading.Thread(target=hold)
    thread.start()
    held.wait()
    late = other.turn(census, lambda turn: turn.tick)
    thread.join()
    assert late - ticks[0] >= 500


def test_readers_see_one_moment_while_turns_go_on(database):
    store, census = opened(database)
    session = Session(store, census, "writer")
    claim = session.claim()
    assert isinstance(claim, Claim)
    run = kaldvemir.Run(9, claim.next - 1)
    claim = session.record(claim, run.rows(5).text, 5)
    with store.reading(census) as reading:
        session.record(claim, run.rows(5).text, 5)
        assert reading.book.next(1) == 6 and reading.positions() == (5, 1, 5)
        assert reading.text(1, 10).decode().splitlines() == list(kaldvemir.rows(9, 1, 5))
    assert seen(store, census).next(1) == 11


class Imagined:
    """A store in memory whose clock is set by hand, a tick a second, to let a month pass."""

    def __init__(self, size: int, shares: int) -> None:
        self.book, self.tick = Book.open(size, shares), 1

    def turn(self, census, decide, text=None):
        turn = Turn(self.book, self.tick)
        answer = decide(turn)
        self.book = turn.book
        return answer


def test_with_the_default_lease_32_workers_last_a_month():
    store, sessions = Imagined(50, 32), 2
    census = Census(1, 50, 32, 1000, 0.0)
    workers = [Session(store, census, str(k), LEASE) for k in range(sessions)]
    claims = [worker.claim() for worker in workers]
    while store.tick < 31 * 86400:
        store.tick += 60
        for k, worker in enumerate(workers):
            claims[k] = worker.record(claims[k], b"", 1)
            assert store.book.ticket(claims[k].share) == claims[k].ticket
    assert store.book.issued > 2 * sessions and store.book.issued * 32 // sessions < 65_535


def test_where_no_ticket_is_left_the_lease_goes_on_to_its_end():
    store = Imagined(50, 32)
    session = Session(store, Census(1, 50, 32, 1000, 0.0), "last", 100)
    claim = session.claim()
    assert isinstance(claim, Claim)
    store.book.numbers.issued = 65_535
    store.tick += 90
    after = session.record(claim, b"", 1)
    assert (after.ticket, after.expiry, after.next) == (claim.ticket, claim.expiry, claim.next + 1)
    store.tick += 10
    with pytest.raises(Refused) as refused:
        session.record(after, b"", 1)
    assert refused.value.number == 59
    with pytest.raises(Refused) as refused:
        session.claim()
    assert refused.value.number == 57


def test_a_session_that_finds_no_share_is_told_how_long_to_wait():
    store = Imagined(6, 1)
    census = Census(1, 6, 1, 1000, 0.0)
    first, second = Session(store, census, "first", 100), Session(store, census, "second", 100)
    claim = first.claim()
    assert isinstance(claim, Claim)
    store.tick += 30
    assert second.claim() == Waiting(False, 70)
    first.record(claim, b"", 22)
    assert second.claim() == Waiting(True, 0)


@pytest.mark.parametrize("seconds, ticks", [(1.0, 20), (1.01, 21), (0.001, 1), (3276.75, 65_535)])
def test_a_lease_is_at_least_as_long_as_it_says(seconds, ticks):
    assert Census(1, 9, 4, 50, 0.0).ticks(seconds) == ticks
