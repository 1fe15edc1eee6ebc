"""What the tests share: the proved library, a PostgreSQL server of their own, databases, and workers as real processes."""

from __future__ import annotations

import os
import random
import sys
from pathlib import Path

import pytest

sys.path.insert(0, str(Path(__file__).parents[1]))

from parts import Proxy, Server, Sql, WorkerProcess, memory_folder, postgresql_folder  # noqa: E402

from kaldvemir.census import connect  # noqa: E402
from kaldvemir.census.session import Session  # noqa: E402


@pytest.fixture(scope="session")
def server(tmp_path_factory):
    """A PostgreSQL server in a temporary folder, ended with the tests."""
    if postgresql_folder() is None:
        pytest.fail("no PostgreSQL server is installed (Debian: apt-get install postgresql)")
    server = Server(memory_folder())
    try:
        server.start()
        yield server
    finally:
        server.remove()


@pytest.fixture(params=["sqlite", "postgresql"])
def database(request, tmp_path):
    """An empty database of each kind, as the program names it."""
    if request.param == "sqlite":
        return str(tmp_path / "census.db")
    return request.getfixturevalue("server").new_database()


@pytest.fixture
def postgresql(server):
    """An empty database of the server."""
    return server.new_database()


@pytest.fixture
def by_hand(database):
    """The tables of the database by SQL."""
    tables = Sql(database)
    yield tables
    tables.close()


@pytest.fixture
def session(database):
    """Sessions in this process, each with a connection of its own: `session(lease)`."""
    stores = []

    def begin(lease):
        stores.append(connect(database, patience=10.0))
        return Session(stores[-1], stores[-1].census(None), f"session {len(stores)}", lease)

    yield begin
    for store in stores:
        store.close()


@pytest.fixture
def dice():
    """Random choices. The seed is printed, so that a failure shows it; KALDVEMIR_SEED sets it."""
    seed = int(os.environ.get("KALDVEMIR_SEED") or int.from_bytes(os.urandom(4), "big"))
    print(f"KALDVEMIR_SEED={seed}")
    return random.Random(seed)


@pytest.fixture
def worker(tmp_path):
    """Starts workers as processes, `worker(database, *options)`, and ends those that are left."""
    started = []

    def start(database, *options):
        started.append(WorkerProcess(database, tmp_path, *options))
        return started[-1]

    yield start
    for each in started:
        each.remove()


@pytest.fixture
def proxy(server):
    """What cuts connections between a worker and the server."""
    proxy = Proxy(server.port)
    yield proxy
    proxy.close()
