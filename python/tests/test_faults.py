"""Faults of workers, connections and servers, with real ones: whatever happens, each row comes into the table once.

Once, a lapsed session freed a later session's claim, rows were doubled and lost, and a catalogue went out with classes missing. Here
sessions lapse, workers are stopped, killed and cut off, and servers are stopped at once; `finished` then compares the whole table.
"""

from __future__ import annotations

import itertools
import os
import signal
import threading
import time
from contextlib import suppress
from dataclasses import replace

import pytest
from parts import Few, Sql, asked_at_line, finished, listed, opened

from kaldvemir import Refused
from kaldvemir.census import Unreachable, connect
from kaldvemir.census.audit import audit
from kaldvemir.census.session import Session
from kaldvemir.census.worker import Stop, Worker

SHORT = ("--lease", "1.0", "--block", "10")
# So slow that it does not come to the end of a share while a test does something to it.
SLOW = ("--lease", "1.0", "--block", "1")
# A worker is refused when it gives back a ticket that is no longer its own. By then its late rows have been thrown away.
LATE = "is not to be given back: refused 5[89]"
# What a worker sends to the server to claim a share and to record a block.
STATEMENTS = (
    *(b"BEGIN", b"COPY kaldvemir_rows_1", b"FOR UPDATE", b"UPDATE kaldvemir_census", b"INSERT INTO kaldvemir_ticket"),
    *(b"INSERT INTO kaldvemir_block", b"COMMIT"),
)


def refused(number, call, *arguments):
    with pytest.raises(Refused) as caught:
        call(*arguments)
    assert caught.value.number == number


def ended(worker, number):
    """Asks a worker to stop, which gives its ticket back."""
    worker.signal(number)
    assert worker.end() == 128 + number, worker.text


def test_a_lapsed_session_neither_frees_nor_writes_what_a_later_one_holds(database, by_hand, session):
    opened(database, 12, 1)
    early, later = session(0.3), session(60.0)
    late = early.claim()
    text = listed(12, late)
    time.sleep(0.4)
    held = later.claim()
    assert held.share == late.share and held.ticket != late.ticket
    held = later.record(held, *listed(12, held))
    before = by_hand.everything()
    refused(58, early.release, late)
    refused(58, early.record, late, *text)
    # Not even the rows that are due now are taken from it.
    refused(58, early.record, replace(late, next=held.next), *listed(12, held))
    assert by_hand.everything() == before
    assert by_hand.book()["ticket"][0] == held.ticket
    held = later.record(held, *listed(12, held))
    assert held.next == 41
    later.release(held)
    finished(database, 12)


def test_a_lapsed_session_is_refused_although_nobody_has_claimed_its_share(database, by_hand, session):
    opened(database, 12, 2)
    early = session(0.3)
    late = early.claim()
    time.sleep(0.4)
    before = by_hand.everything()
    refused(59, early.release, late)
    refused(59, early.record, late, *listed(12, late))
    assert by_hand.everything() == before
    finished(database, 12)


def test_blocks_out_of_order_are_refused(database, by_hand, session):
    opened(database, 12, 2)
    held = session(60.0)
    first = held.claim()
    ahead = replace(first, next=first.next + 20)
    before = by_hand.everything()
    refused(60, held.record, ahead, *listed(12, ahead))
    assert by_hand.everything() == before
    second = held.record(first, *listed(12, first))
    before = by_hand.everything()
    refused(60, held.record, first, *listed(12, first))
    # Neither do rows that are not next get in behind rows that are.
    refused(60, held.record, replace(second, next=second.next - 1), *listed(12, replace(second, next=second.next - 1)))
    assert by_hand.everything() == before
    held.release(second)
    finished(database, 12)


def test_workers_stopped_past_their_lease_are_refused_when_they_wake(database, worker, dice):
    opened(database, 16, 1)
    held = worker(database, *SLOW)
    for _ in range(3):
        held.says("claimed with ticket")
        time.sleep(dice.uniform(0.0, 0.3))
        since = len(held.text)
        held.stop()
        other = worker(database, *SLOW)
        # With SQLite it may have been stopped while it had the lock of the file: then the other says so, and goes on after it.
        if "claimed" not in other.says("claimed with ticket|held the lock"):
            time.sleep(0.3)
        held.wake()
        held.says(LATE, since=since)
        ended(held, signal.SIGTERM)
        held = other
    ended(held, signal.SIGTERM)
    finished(database, 16)


@pytest.mark.parametrize("moment", [b"COPY", b"FOR UPDATE", b"UPDATE kaldvemir_census", b"COMMIT"])
def test_a_worker_stopped_within_a_transaction_is_put_aside(postgresql, proxy, worker, moment):
    opened(postgresql, 15, 1)
    awake, stopped, sent = threading.Event(), threading.Event(), []

    def rule(part):
        if stopped.is_set() or not (sent or b"COPY" in part):
            return "pass"
        # In the middle of a COPY: so much has arrived that the server has written rows, and the rest is kept back.
        due = sum(sent) > 140_000 if moment == b"COPY" else moment in part
        sent.append(len(part))
        if due:
            early.stop()
            stopped.set()
            if moment == b"COPY":
                awake.wait(30.0)
        return "pass"

    proxy.rule = rule
    early = worker(proxy.url(postgresql), "--lease", "1.0", "--block", "2500")
    assert stopped.wait(30.0)
    other = worker(postgresql, *SLOW)
    other.says("claimed with ticket")
    if moment == b"COPY":
        other.says("ended the session of server process")
    awake.set()
    early.wake()
    early.says(LATE)
    ended(early, signal.SIGTERM)
    ended(other, signal.SIGTERM)
    finished(postgresql, 15)


def test_workers_killed_at_random_moments_leave_whole_blocks(database, worker, dice):
    opened(database, 16, 2)
    for _ in range(3):
        victims = [worker(database, *SLOW) for _ in range(2)]
        while not any("claimed with ticket" in victim.text for victim in victims):
            assert any(victim.process.poll() is None for victim in victims)
            time.sleep(0.01)
        time.sleep(dice.uniform(0.0, 0.3))
        for victim in victims:
            victim.kill()
    finished(database, 16)


def test_workers_go_on_after_their_server_was_stopped_at_once(server, postgresql, worker, dice):
    opened(postgresql, 14, 2)
    workers = [worker(postgresql, "--lease", "1.0", "--block", "5") for _ in range(2)]
    for each in workers:
        each.says("claimed with ticket")
    for _ in range(3):
        time.sleep(dice.uniform(0.0, 0.3))
        server.stop(dice.choice(["immediate", "immediate", "fast"]))
        time.sleep(dice.uniform(0.0, 0.3))
        server.start()
    assert [each.end() for each in workers] == [0, 0]
    assert "the book will tell" in workers[0].text + workers[1].text
    finished(postgresql, 14)


def test_workers_go_on_after_their_sessions_were_ended_by_hand(postgresql, worker, dice):
    opened(postgresql, 15, 2)
    tables = Sql(postgresql)
    workers = [worker(postgresql, *SHORT) for _ in range(2)]
    for each in workers:
        each.says("claimed with ticket")
    for _ in range(8):
        time.sleep(dice.uniform(0.0, 0.1))
        tables("SELECT pg_terminate_backend(pid) FROM pg_stat_activity WHERE application_name = 'kaldvemir work'")
    assert [each.end() for each in workers] == [0, 0]
    assert "the book will tell" in workers[0].text + workers[1].text
    tables.close()
    finished(postgresql, 15)


def worked(database, blocks, number):
    """What a worker in this process says that records a few blocks of so many rows and gives its ticket back."""
    store, few = connect(database, patience=10.0), Few(blocks)
    Worker(Session(store, store.census(None), "cut off", 1.0), few, few.say, number, progress=0.0).work()
    store.close()
    return "\n".join(few.lines)


def agrees(database):
    """The table holds what the book says is committed, and nothing else."""
    store = connect(database)
    with store.reading(store.census(None)) as reading:
        audit(reading, store.census(None), lambda _: None)
    store.close()


def cut_at(number, verdict, cut):
    """A rule: the part of that number is cut off or its answer lost, and it is noted; what comes before and after passes."""
    parts = itertools.count(1)

    def rule(part):
        if next(parts) != number:
            return "pass"
        cut.append(part)
        return verdict

    return rule


@pytest.mark.parametrize("verdict", ["cut", "lose"])
def test_a_connection_cut_at_any_message_leaves_table_and_book_in_step(postgresql, proxy, verdict):
    opened(postgresql, 13, 1)
    cut = []
    for number in itertools.count(1):
        proxy.rule = cut_at(number, verdict, cut)
        with suppress(Unreachable):  # a worker does not begin without a connection
            worked(proxy.url(postgresql), 2, 5)
        agrees(postgresql)
        if len(cut) < number:
            break  # it came to its end before that part
    for statement in STATEMENTS:
        assert any(statement in part for part in cut), statement
    assert any(part.startswith(b"d") for part in cut), "no data of a COPY was cut"
    finished(postgresql, 13)


@pytest.mark.parametrize("number, line", [(5, "claimed with ticket 2, from position 6 to 382"), (500, "refused 58")])
def test_a_block_whose_commit_was_answered_to_nobody_is_not_recorded_again(postgresql, proxy, number, line):
    opened(postgresql, 12, 2)
    seen = []

    def rule(part):
        seen.extend(word for word in (b"COPY", b"COMMIT") if word in part)
        if seen[-2:] != [b"COPY", b"COMMIT"]:
            return "pass"
        seen.append(b"lost")
        return "lose" if seen.count(b"lost") == 1 else "pass"

    proxy.rule = rule
    said = worked(proxy.url(postgresql), 1, number)
    assert "the book will tell" in said and line in said
    finished(postgresql, 12)


def at_the_gate(database, tables, workers):
    """How many workers have got as far as the lock."""
    if database.startswith("postgresql:"):
        return tables("SELECT count(*) FROM pg_locks WHERE NOT granted")[0][0]
    return sum(has_open(each.process.pid, database) for each in workers)


def has_open(process, path):
    """Whether a process has a file open. What it closes while this looks is passed over."""
    folder = f"/proc/{process}/fd"
    for name in os.listdir(folder):
        with suppress(OSError):
            if os.readlink(f"{folder}/{name}") == path:
                return True
    return False


@pytest.mark.parametrize("size, number", [(6, 2), (13, 8)])
def test_workers_that_race_for_every_share_get_each_row_in_once(database, by_hand, worker, size, number):
    opened(database, size, 32)
    by_hand("BEGIN")
    by_hand("UPDATE kaldvemir_census SET layout = layout")
    workers = [worker(database, "--lease", "30", "--block", "5", "--name", str(k)) for k in range(number)]
    while at_the_gate(database, by_hand, workers) < number:
        assert all(each.process.poll() is None for each in workers)
        time.sleep(0.02)
    time.sleep(0.2)
    by_hand("ROLLBACK")
    while any(each.process.poll() is None for each in workers):
        standing = [ticket for ticket in by_hand.book()["ticket"] if ticket]
        assert len(standing) == len(set(standing))
        time.sleep(0.01)
    assert [each.end() for each in workers] == [0] * number
    tickets = by_hand("SELECT share, holder FROM kaldvemir_ticket")
    store = connect(database)
    assert {share for share, _ in tickets} == {k for k, (first, last) in enumerate(store.census(None).stretches(), 1) if first <= last}
    assert number == 2 or len({name for _, name in tickets}) > 1, "there was no race"
    store.close()
    finished(database, size)


@pytest.mark.parametrize("workers, number", [(1, signal.SIGINT), (2, signal.SIGINT), (2, signal.SIGTERM)])
def test_workers_asked_to_stop_give_their_tickets_back(database, by_hand, worker, dice, workers, number):
    opened(database, 18, 2)
    held = worker(database, "--workers", str(workers), "--lease", "600", "--block", "20")
    for each in range(1, workers + 1):
        held.says("claimed with ticket" if workers == 1 else f"worker {each}: .*claimed with ticket")
    time.sleep(dice.uniform(0.0, 0.2))
    ended(held, number)
    assert by_hand.book()["ticket"] == by_hand.book()["expiry"] == [0] * 32
    finished(database, 18)  # at once: a lease of 600 seconds is not waited for


def test_a_worker_can_be_asked_to_stop_at_any_moment_of_a_pause():
    for line in itertools.count(1):
        stop = Stop()
        pause = threading.Thread(target=asked_at_line, args=(stop, line), daemon=True)
        pause.start()
        pause.join(5.0)
        assert not pause.is_alive(), f"asked to stop at step {line} of a pause, it hangs"
        if not stop:
            break  # the pause had been over by then
    assert line > 1


def test_a_lease_is_renewed_by_new_tickets_and_its_share_is_never_free(database, by_hand, worker):
    opened(database, 16, 1)
    held = worker(database, *SLOW)
    held.says("claimed with ticket 1,")
    seen = set()
    while len(seen) < 4:
        assert held.process.poll() is None, held.text
        seen.add(by_hand.book()["ticket"][0])
        time.sleep(0.005)
    assert 0 not in seen
    held.says("lease renewed, ticket . in place of")
    ended(held, signal.SIGTERM)
    finished(database, 16)
