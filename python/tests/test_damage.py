"""Damage done by hand, clocks that go back, and books without tickets: the program says so, alters nothing, and goes on once it is mended.

What it never does itself is done here by SQL: the book's row and the table are written past the program.
"""

from __future__ import annotations

import signal
import time
from dataclasses import replace

from parts import asked, finished, listed, opened

import kaldvemir
from kaldvemir.census import connect
from kaldvemir.census.store import COLUMNS

# Ways to make a book not valid, of one whose first two shares of three are held. Each gives the numbers that are written.
DAMAGES = {
    "a next position outside its share": lambda book: {"next": changed(book["next"], 1, book["next"][0])},
    "a next position past the one after its share": lambda book: {"next": changed(book["next"], 0, book["next"][1] + 1)},
    "a finished share with a ticket": lambda book: {"next": changed(book["next"], 0, book["next"][1])},
    "two equal tickets": lambda book: {"ticket": changed(book["ticket"], 1, book["ticket"][0])},
    "a ticket that was never issued": lambda book: {"ticket": changed(book["ticket"], 1, book["issued"] + 1)},
    "an expiry without a ticket": lambda book: {"expiry": changed(book["expiry"], 2, book["latest"])},
    "an expiry too far away": lambda book: {"expiry": changed(book["expiry"], 0, book["latest"] + 65_536)},
    "more tickets than there can be": lambda book: {"issued": 65_536},
    "a latest tick of 2^48": lambda book: {"latest": 1 << 48},
    "a latest tick below 0": lambda book: {"latest": -1},
    "a next position below 0": lambda book: {"next": changed(book["next"], 0, -1)},
    "an unused share that is not 0": lambda book: {"next": changed(book["next"], 31, 1)},
    "another size": lambda book: {"size": 13},
    "a size out of range": lambda book: {"size": 51},
    "a size below 0": lambda book: {"size": -1},
    "another number of shares": lambda book: {"shares": 4},
    "a number of shares out of range": lambda book: {"shares": 33},
    "a number of shares below 0": lambda book: {"shares": -1},
    "a list too short": lambda book: {"ticket": book["ticket"][:31]},
    "a list too long": lambda book: {"expiry": book["expiry"] + [0]},
}


def changed(values, place, value):
    """A list with another value at a place."""
    return values[:place] + [value] + values[place + 1 :]


def test_a_damaged_book_stops_workers_and_nothing_is_altered(database, by_hand, session):
    opened(database, 12, 3)
    held, other = session(600.0), session(600.0)
    claim, second = held.claim(), other.claim()
    for name, damage in DAMAGES.items():
        good = by_hand.book()
        by_hand.put(**damage(good))
        before = by_hand.everything()
        status, said = asked("work", "--db", database)
        assert status == 1 and ("refused 50" in said or "does not hold a book" in said), (name, said)
        refused = asked("report", "--db", database)
        assert refused[0] == (2 if "refused 50" in said else 1), (name, refused)
        assert asked("audit", "--db", database)[0] == 1, name
        assert by_hand.everything() == before, name
        by_hand.put(**good)
        claim = held.record(claim, *listed(12, claim, 10))  # the run goes on
    held.release(claim)
    other.release(second)
    finished(database, 12)


def set_back(database, seconds):
    """As if the database's clock had gone back by so much: the book's latest tick is put ahead of it, under the lock."""
    store = connect(database)
    store.turn(store.census(None), lambda turn: setattr(turn.book.numbers, "latest", turn.tick + int(seconds * 20)))
    store.close()


def test_a_worker_waits_for_a_clock_that_went_back(database):
    opened(database, 12, 1)
    set_back(database, 1.5)
    status, said = asked("work", "--db", database)
    assert status == 0 and "refused 52: the database's clock is 1." in said
    finished(database, 12)


def test_a_worker_whose_clock_goes_back_goes_on_with_a_new_ticket(database, by_hand, worker):
    opened(database, 15, 1)
    held = worker(database, "--lease", "1.0", "--block", "1")
    held.says("claimed with ticket")
    set_back(database, 2.0)
    held.says("refused 52")
    since, before = len(held.text), by_hand.everything()
    time.sleep(0.3)
    assert by_hand.everything() == before
    held.says("thrown away, refused 59", since=since)
    held.says("claimed with ticket", since=since)
    held.signal(signal.SIGTERM)
    assert held.end() == 143
    finished(database, 15)


def inserted(tables, row):
    """Writes a row into the table by hand, given as its text or its fields."""
    fields = row.split(" ") if isinstance(row, str) else row
    values = [value if name in ("word", "s0", "s1", "mark") else int(value) for name, value in zip(COLUMNS, fields)]
    tables(f"INSERT INTO kaldvemir_rows_1 VALUES ({', '.join('?' * len(values))})", *values)


def test_a_row_that_nobody_recorded_stops_the_worker_that_comes_to_it(database, by_hand, dice):
    opened(database, 12, 1)
    position = dice.randrange(351, 401)
    inserted(by_hand, list(kaldvemir.rows(12))[position - 1])  # even where it is the right row
    status, said = asked("work", "--db", database, "--block", "50")
    assert status == 1 and "kaldvemir_rows_1" in said and "positions 351 to 400" in said
    book = by_hand.book()
    assert (book["next"][0], book["ticket"][0]) == (351, 0)
    assert by_hand("SELECT position FROM kaldvemir_rows_1 WHERE position > 350") == [(position,)]
    status, said = asked("audit", "--db", database)
    assert status == 1 and f"not committed: `{position} " in said
    by_hand("DELETE FROM kaldvemir_rows_1 WHERE position > 350")
    finished(database, 12)


def completed(database):
    """A census that is complete, of size 12."""
    opened(database, 12, 4)
    assert asked("work", "--db", database)[0] == 0


def differs(database, sentence):
    """The audit says that sentence, and exits 1."""
    status, said = asked("audit", "--db", database)
    assert status == 1 and sentence in said, said


def test_the_audit_finds_each_field_that_was_altered(database, by_hand, dice):
    completed(database)
    for name in COLUMNS[1:]:
        position = dice.randrange(1, 765)
        [(value,)] = by_hand(f"SELECT {name} FROM kaldvemir_rows_1 WHERE position = ?", position)
        other = value + 1 if isinstance(value, int) else {"K": "-", "-": "K"}.get(value, value[:-1])
        by_hand(f"UPDATE kaldvemir_rows_1 SET {name} = ? WHERE position = ?", other, position)
        differs(database, f"position {position}: the table has `{position} ")
        by_hand(f"UPDATE kaldvemir_rows_1 SET {name} = ? WHERE position = ?", value, position)
        assert asked("audit", "--db", database)[0] == 0
    finished(database, 12)


def test_the_audit_finds_rows_that_are_missing_exchanged_or_too_many(database, by_hand, dice):
    completed(database)
    text = list(kaldvemir.rows(12))
    for position in (1, dice.randrange(2, 764), 764):
        by_hand("DELETE FROM kaldvemir_rows_1 WHERE position = ?", position)
        differs(database, f"position {position}: the row is missing")
        inserted(by_hand, text[position - 1])
    for position in (-3, 0, 765, 10**12):
        inserted(by_hand, [position, *text[0].split(" ")[1:]])
        differs(database, f"not committed: `{position} ")
        by_hand("DELETE FROM kaldvemir_rows_1 WHERE position = ?", position)
    first, second = sorted(dice.sample(range(1, 765), 2))
    exchange = "UPDATE kaldvemir_rows_1 SET word = ? WHERE position = ?"
    words = [text[position - 1].split(" ")[1] for position in (first, second)]
    by_hand(exchange, words[1], first)
    by_hand(exchange, words[0], second)
    differs(database, f"position {first}: the table has `{first} {words[1]} ")
    by_hand(exchange, words[0], first)
    by_hand(exchange, words[1], second)
    finished(database, 12)


def test_a_valid_book_that_is_not_the_tables_is_found_and_doubles_no_row(database, by_hand):
    completed(database)
    good = by_hand.book()["next"]
    by_hand.put(next=changed(good, 1, 380))
    differs(database, "not committed: `380 ")
    table = by_hand("SELECT * FROM kaldvemir_rows_1 ORDER BY position")
    status, said = asked("work", "--db", database)
    assert status == 1 and "positions 380 to 382" in said
    assert by_hand("SELECT * FROM kaldvemir_rows_1 ORDER BY position") == table
    by_hand.put(next=good)
    finished(database, 12)


def test_a_book_that_is_ahead_of_the_table_is_found(database, by_hand, session):
    opened(database, 12, 1)
    held = session(600.0)
    claim = held.claim()
    claim = held.record(claim, *listed(12, claim))
    by_hand.put(next=changed(by_hand.book()["next"], 0, 25))
    differs(database, "position 21: the row is missing")
    by_hand.put(next=changed(by_hand.book()["next"], 0, 21))
    held.release(claim)
    finished(database, 12)


def test_a_worker_without_a_ticket_to_be_had_says_what_to_do(database, by_hand):
    opened(database, 12, 2)
    by_hand.put(issued=65_535)
    before = by_hand.everything()
    status, said = asked("work", "--db", database)
    assert status == 1 and "refused 57" in said and "open another census" in said
    assert by_hand.everything() == before
    by_hand.put(issued=0)
    finished(database, 12)


def test_the_last_ticket_goes_on_until_it_lapses(database, by_hand, session):
    opened(database, 12, 1)
    by_hand.put(issued=65_534)
    held = session(600.0)
    claim = held.claim()
    due = replace(claim, expiry=claim.tick + 1)  # so little is left that it would be renewed
    after = held.record(due, *listed(12, due))
    assert (claim.ticket, after.ticket, after.next) == (65_535, 65_535, 21)
    assert by_hand.book()["ticket"][0] == 65_535
    held.release(after)
    by_hand.put(issued=1)
    for table in ("kaldvemir_ticket", "kaldvemir_block"):
        by_hand(f"UPDATE {table} SET ticket = 1")
    finished(database, 12)


def test_a_table_that_lacks_a_row_is_not_printed_as_a_whole_one(database, by_hand):
    completed(database)
    by_hand("DELETE FROM kaldvemir_rows_1 WHERE position = 400")
    status, said = asked("rows", "--db", database)
    assert status == 1 and "listed" not in said
    inserted(by_hand, list(kaldvemir.rows(12))[399])
    finished(database, 12)


def test_a_worker_that_waits_for_the_clock_can_be_asked_to_stop(database, by_hand, worker):
    opened(database, 12, 1)
    set_back(database, 20.0)
    late = worker(database, "--lease", "1.0")
    late.says("refused 52")
    late.signal(signal.SIGINT)
    assert late.end() == 130
    by_hand.put(latest=0)
    finished(database, 12)
