"""The shared census: one list, its book and its rows in a database, worked on by several sessions.

`store` says what a database is asked for, `sqlite` and `postgresql` are the two databases; `session` is one worker's dealings with
the book, `worker` its loop, `supervisor` several workers on one machine; `report`, `audit` and `formats` read what is there.
"""

from .store import Census, Clash, Damage, Problem, Snapshot, Store, Turn, Unreachable, connect

__all__ = ["Census", "Clash", "Damage", "Problem", "Snapshot", "Store", "Turn", "Unreachable", "connect"]
