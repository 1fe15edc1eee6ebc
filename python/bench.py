"""The speed of the shared census, as ratios measured in one run: python/bench.sh [--size 22] [--repeats 3]

What is measured by turns, and the median of each told:
- how long one worker, as a process with all that belongs to it, takes to record a size, and how long the database takes for the finished
  text alone: PostgreSQL by one COPY into the same kind of table, SQLite by one executemany;
- how long two workers take;
- opening, claiming and reporting at 32 shares.
Exit status 1 where a bar is missed.
"""

from __future__ import annotations

import argparse
import statistics
import sys
import tempfile
import time
from collections.abc import Callable
from pathlib import Path

sys.path[:0] = [str(Path(__file__).parent), str(Path(__file__).parent / "tests")]

import psycopg  # noqa: E402
from parts import Server, program  # noqa: E402

import kaldvemir  # noqa: E402
from kaldvemir.census import connect  # noqa: E402
from kaldvemir.census.report import report  # noqa: E402
from kaldvemir.census.session import Claim, Session  # noqa: E402
from kaldvemir.census.sqlite import INSERT  # noqa: E402

SHARES = 8
QUICK_BAR = 0.050


def finished(size: int) -> bytes:
    run, parts = kaldvemir.Run(size), []
    while (rows := run.rows(32_768)).given:
        parts.append(rows.text)
    return b"".join(parts)


def timed(call: Callable[[], object]) -> float:
    begun = time.perf_counter()
    call()
    return time.perf_counter() - begun


def copied(database: str, size: int, text: bytes) -> float:
    """The finished text into an empty table by one COPY."""
    store = connect(database)
    table = store.open(size, 1, 1000).table
    store.close()
    with psycopg.connect(database) as connection:

        def copy() -> None:
            with connection.cursor().copy(f"COPY {table} FROM STDIN (DELIMITER ' ')") as copy:
                for start in range(0, len(text), 1 << 22):
                    copy.write(text[start : start + (1 << 22)])
            connection.commit()

        return timed(copy)


def inserted(database: str, size: int, text: bytes) -> float:
    """The finished rows into an empty table by one executemany."""
    store = connect(database, create=True)
    table = store.open(size, 1, 1000).table
    rows = [tuple(line.split(" ")) for line in text.decode().splitlines()]

    def insert() -> None:
        with store._locked():
            store._db.executemany(INSERT.format(table=table), rows)

    return timed(insert)


def worked(database: str, size: int, workers: int) -> float:
    program("open", "--db", database, "--size", str(size), "--shares", str(SHARES))
    return timed(lambda: program("work", "--db", database, "--workers", str(workers)))


def quick(database: str) -> dict[str, float]:
    """The slowest of twenty calls at 32 shares, in seconds."""
    store = connect(database, create=True)
    opened = [timed(lambda: store.open(24, 32, 1000)) for _ in range(20)]
    census = store.censuses()[-1]
    claimed, seen = [], []
    for k in range(20):
        session = Session(store, census, f"bench {k}")
        claims: list[object] = []
        claimed.append(timed(lambda: claims.append(session.claim())))
        seen.append(timed(lambda: report(store.snapshot(census))))
        assert isinstance(claims[0], Claim)
    return {"open": max(opened), "claim": max(claimed), "report": max(seen)}


class Table:
    """Lines of figures, and whether every bar was met."""

    def __init__(self) -> None:
        self.met = True

    def line(self, what: str, seconds: float, base: float, bar: float) -> None:
        ratio = seconds / base
        self._told(f"{what}: {seconds:.2f} s to {base:.2f} s, ratio {ratio:.2f}", ratio <= bar, f"at most {bar:g}")

    def quick(self, what: str, seconds: float) -> None:
        self._told(f"{what}: {seconds * 1000:.1f} ms at most", seconds < QUICK_BAR, "under 50 ms")

    def _told(self, text: str, met: bool, bar: str) -> None:
        print(f"{text} (bar: {bar}, {'met' if met else 'MISSED'})", flush=True)
        self.met &= met


def measured(table: Table, name: str, new: Callable[[], str], base: Callable[[str, int, bytes], float], size: int, repeats: int) -> None:
    text = finished(size)
    figures: dict[str, list[float]] = {"base": [], "one": [], "two": []}
    for _ in range(repeats):
        figures["base"].append(base(new(), size, text))
        figures["one"].append(worked(new(), size, 1))
        figures["two"].append(worked(new(), size, 2))
    median = {key: statistics.median(values) for key, values in figures.items()}
    print(f"{name}, size {size}, {text.count(10):,} rows, seconds of {repeats} repeats:", flush=True)
    for key, values in figures.items():
        print(f"  {key}: {', '.join(f'{value:.2f}' for value in values)}")
    table.line(f"{name}: one worker to the finished text alone", median["one"], median["base"], 2.0)
    table.line(f"{name}: two workers to one", median["two"], median["one"], 1.0)
    for what, seconds in quick(new()).items():
        table.quick(f"{name}: {what}, 32 shares", seconds)


def main() -> None:
    parser = argparse.ArgumentParser(description=__doc__, formatter_class=argparse.RawDescriptionHelpFormatter)
    parser.add_argument("--size", type=int, default=22)
    parser.add_argument("--repeats", type=int, default=3)
    options = parser.parse_args()
    table, server = Table(), Server()
    try:
        server.start()
        measured(table, "PostgreSQL", server.new_database, copied, options.size, options.repeats)
        with tempfile.TemporaryDirectory() as folder:
            files = (f"{folder}/{k}.db" for k in range(1000))
            measured(table, "SQLite", lambda: next(files), inserted, options.size, options.repeats)
    finally:
        server.remove()
    sys.exit(0 if table.met else 1)


if __name__ == "__main__":
    main()
