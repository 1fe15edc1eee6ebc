"""The command-line program as its users meet it: opening, working, reading the table, and what it says where something is wrong."""

from __future__ import annotations

import csv
import io
import json
import os
import sqlite3
import subprocess
from concurrent.futures import ThreadPoolExecutor
from pathlib import Path

import pytest
from parts import PACKAGE, WorkerProcess, program

import kaldvemir
from kaldvemir.census.formats import as_gap, header, last_line

CENSUS = PACKAGE.parent / "target" / "bin" / "census"


def census_text(size: int) -> str:
    """What the census program prints for a size."""
    if not CENSUS.exists():
        pytest.fail("the census program is not built: ./build.sh census")
    return subprocess.run([str(CENSUS)], input=f"{size}\n", capture_output=True, text=True, check=True).stdout


def opened(database: str, size: int = 9, shares: int = 4, *options: str) -> str:
    program("open", "--db", database, "--size", str(size), "--shares", str(shares), *options)
    return database


def test_a_census_worked_to_its_end_is_what_the_census_program_prints(database):
    opened(database, 12)
    program("work", "--db", database, "--workers", "2")
    assert program("rows", "--db", database).stdout == census_text(12)
    assert "764 rows agree" in program("audit", "--db", database).stdout
    assert "764 of 764 positions (100.0 %)" in program("report", "--db", database).stdout


def test_four_workers_of_which_one_is_killed_make_the_table_of_size_22(database, tmp_path):
    opened(database, 22, 8)
    workers = [WorkerProcess(database, tmp_path, "--lease", "3", "--block", "4096") for _ in range(4)]
    workers[1].says("claimed with ticket")
    workers[1].kill()
    assert [worker.end(240) for worker in workers if worker is not workers[1]] == [0, 0, 0]
    assert program("rows", "--db", database).stdout == census_text(22)
    assert "682,572 rows agree" in program("audit", "--db", database).stdout


def test_rows_of_a_census_that_is_not_complete_have_no_last_line(database):
    opened(database)
    printed = program("rows", "--db", database)
    assert printed.stdout == header(9) + "\n"
    assert "not complete" in printed.stderr
    program("work", "--db", database)
    assert program("rows", "--db", database).stdout.splitlines()[-1] == last_line(120, 14)


def test_rows_can_be_cut_and_sifted(database):
    program("work", "--db", opened(database))
    lines = program("rows", "--db", database, "--from", "10", "--to", "29").stdout.splitlines()
    assert lines == list(kaldvemir.rows(9, 10, 29))
    kept = program("rows", "--db", database, "--kept").stdout.splitlines()
    assert kept == [row for row in kaldvemir.rows(9) if row.endswith(" K")] and len(kept) == 14


def test_rows_as_csv_json_and_for_gap_hold_the_same_diagrams(database):
    program("work", "--db", opened(database))
    wanted = [(d.position, str(d.word), list(d.s0), list(d.s1), *d.invariants, d.kept) for d in kaldvemir.listing(9)]
    lists = ("s0", "s1")
    from_csv = [
        tuple(
            [int(e) for e in v.split(",")] if k in lists else v == "K" if k == "mark" else v if k == "word" else int(v)
            for k, v in r.items()
        )
        for r in csv.DictReader(io.StringIO(program("rows", "--db", database, "--format", "csv").stdout))
    ]
    from_json = [tuple(json.loads(line).values()) for line in program("rows", "--db", database, "--format", "jsonl").stdout.splitlines()]
    assert from_csv == wanted
    assert from_json == wanted
    assert program("rows", "--db", database, "--format", "gap").stdout.splitlines() == list(as_gap(kaldvemir.rows(9)))


def test_a_database_holds_several_censuses_and_asks_which_is_meant(database):
    opened(opened(database, 7, 2), 8, 3)
    asked = program("work", "--db", database, check=False)
    assert asked.returncode == 1 and "--census" in asked.stderr and "1 (size 7, 2 shares), 2 (size 8, 3 shares)" in asked.stderr
    program("work", "--db", database, "--census", "2")
    assert program("rows", "--db", database, "--census", "2").stdout == census_text(8)
    assert "0 of 42 positions" in program("report", "--db", database, "--census", "1").stdout
    both = program("report", "--db", database).stdout.splitlines()
    assert [line.split(" positions")[0] for line in both] == ["census 1, size 7: 0 of 42", "census 2, size 8: 40 of 40"]


def test_opening_again_with_resume_goes_on(database):
    opened(database, 7, 2)
    assert program("open", "--db", database, "--size", "7", "--shares", "2", "--resume").stdout.startswith("census 1 in ")
    assert program("open", "--db", database, "--size", "7", "--shares", "3", "--resume").stdout.startswith("census 2 in ")
    assert program("open", "--db", database, "--size", "7", "--shares", "2").stdout.startswith("census 3 in ")


def test_machines_that_open_at_once_find_one_census(database):
    with ThreadPoolExecutor(4) as machines:
        calls = [machines.submit(program, "open", "--db", database, "--size", "7", "--shares", "2", "--resume") for _ in range(4)]
    assert {call.result().stdout.split(" in ")[0] for call in calls} == {"census 1"}


@pytest.mark.parametrize("options, number", [(("51", "4"), 31), (("0", "4"), 31), (("9", "0"), 51), (("9", "33"), 51)])
def test_a_refused_open_says_its_number_and_makes_nothing(tmp_path, options, number):
    database = tmp_path / "none.db"
    refused = program("open", "--db", str(database), "--size", options[0], "--shares", options[1], check=False)
    assert refused.returncode == 2 and f"refused {number}: " in refused.stderr
    assert not database.exists()


def test_a_database_that_is_not_there_is_said_with_what_to_do(tmp_path):
    missing = program("report", "--db", str(tmp_path / "none.db"), check=False)
    assert missing.returncode == 1 and "kaldvemir open" in missing.stderr
    away = program("report", "--db", "postgresql://127.0.0.1:1/none", check=False)
    assert away.returncode == 1 and "does not answer" in away.stderr


def test_a_server_without_a_census_is_said_with_what_to_do(postgresql):
    empty = program("report", "--db", postgresql, check=False)
    assert empty.returncode == 1 and "kaldvemir open" in empty.stderr


def test_a_file_that_is_no_database_is_said(tmp_path):
    text = tmp_path / "notes.txt"
    text.write_text("not a database, only a text that is long enough to be looked at as one\n" * 40)
    wrong = program("report", "--db", str(text), check=False)
    assert wrong.returncode == 1 and "not a database" in wrong.stderr


def test_a_table_of_another_layout_is_not_touched(tmp_path):
    database = opened(str(tmp_path / "later.db"))
    with sqlite3.connect(database) as connection:
        connection.execute("UPDATE kaldvemir_census SET layout = 2")
    later = program("work", "--db", database, check=False)
    assert later.returncode == 1 and "another version" in later.stderr


def test_libpq_finds_the_server_by_variables_and_service_file(server, postgresql, tmp_path):
    name = postgresql.rsplit("/", 1)[1]
    found = {"PGHOST": "127.0.0.1", "PGPORT": str(server.port), "PGUSER": "kaldvemir", "PGDATABASE": name}
    assert "census 1 in " in _in_environment(found, "open", "--db", "postgresql://", "--size", "5", "--shares", "1").stdout
    services = tmp_path / "services"
    services.write_text(f"[census]\nhost=127.0.0.1\nport={server.port}\nuser=kaldvemir\ndbname={name}\n")
    by_service = {"PGSERVICEFILE": str(services)}
    assert "0 of 5 positions" in _in_environment(by_service, "report", "--db", "postgresql://?service=census").stdout


def _in_environment(variables: dict[str, str], *arguments: str) -> subprocess.CompletedProcess[str]:
    before = dict(os.environ)
    os.environ.update(variables)
    try:
        return program(*arguments)
    finally:
        os.environ.clear()
        os.environ.update(before)


def test_a_password_file_is_used(server, postgresql, tmp_path):
    server.ask_for_passwords("clerk", "sesame")
    address = postgresql.replace("kaldvemir@", "clerk@")
    passwords = tmp_path / "passwords"
    passwords.write_text(f"127.0.0.1:{server.port}:*:clerk:sesame\n")
    passwords.chmod(0o600)
    wrong = program("report", "--db", address, check=False)
    assert wrong.returncode == 1 and "password" in wrong.stderr
    right = _in_environment({"PGPASSFILE": str(passwords)}, "open", "--db", address, "--size", "5", "--shares", "1")
    assert "census 1 in " in right.stdout


def test_draw_gives_a_picture_of_a_position_and_of_a_diagram(tmp_path):
    printed = program("draw", "3", "2").stdout
    assert printed.startswith("<") and "</svg>" in printed
    program("draw", "--s0", "2,3,1", "--s1", "2,1,3", "-o", str(tmp_path / "d.svg"))
    assert (tmp_path / "d.svg").read_text().strip() == printed.strip()
    refused = program("draw", "3", "5", check=False)
    assert refused.returncode == 2 and "refused 32" in refused.stderr
    assert program("draw", "3", check=False).returncode == 2


def test_a_reader_that_goes_away_is_said(tmp_path):
    database = opened(str(tmp_path / "pipe.db"), 16, 1)
    program("work", "--db", database)
    command = f"'{PACKAGE.parent}/kaldvemir' rows --db '{database}' | head -1"
    cut = subprocess.run(["bash", "-o", "pipefail", "-c", command], capture_output=True, text=True)
    assert cut.returncode == 1 and "standard output was closed" in cut.stderr


def test_watching_ends_when_the_census_is_complete(database, tmp_path):
    opened(database, 12)
    worker = WorkerProcess(database, Path(tmp_path))
    watched = program("report", "--db", database, "--watch").stdout
    assert worker.end() == 0
    assert "764 of 764 positions (100.0 %)" in watched.split("census 1")[-1]
