#!/usr/bin/env python3
"""peers.py PROGRAM [--rows R] [--rounds N] [--touch K] [--store STORE_BENCH] [--commits C]: the program beside SQLite
on one piece of work, in one run.

The work: a table of R rows of two integers, found by the first (here by an index, in SQLite by the key); N rounds,
each of which adds a number to K neighbouring rows by one UPDATE and declares a snapshot as it commits; then the sum of
a column as of every snapshot; all on files. SQLite does it in
two ways: history by triggers (rows with the snapshots between which they held), and a copy of the table at each
snapshot, in WAL mode with a sync at each commit. It declares the snapshot in the commit of the UPDATE, one sync a
round, and in a commit of its own, two syncs, as many as the program has. Sums that differ end it with status 1. Seconds
are of the wall; an opening, the least of five runs that only look, is taken off the program's.

With the program of crates/store_bench it also tells how many of C small rounds are made a second: there a page is
written and a snapshot declared by one commit of two syncs, and in SQLite a row is changed and another inserted, by two
commits of a sync each, or by one. It works in a folder of its own under the current one.
"""
import argparse
import os
import random
import sqlite3
import subprocess
import sys
import tempfile
import time

HISTORY = """CREATE TABLE snap(n INTEGER PRIMARY KEY);
CREATE TABLE old(a INT, b INT, first INT, last INT);
CREATE TABLE born(a INTEGER PRIMARY KEY, n INT);
CREATE INDEX old_span ON old(first, last);
CREATE TRIGGER keep BEFORE UPDATE ON t
  WHEN (SELECT n FROM born WHERE a = old.a) <= (SELECT coalesce(max(n), 0) FROM snap)
  BEGIN
    INSERT INTO old VALUES(old.a, old.b, (SELECT n FROM born WHERE a = old.a), (SELECT max(n) FROM snap));
    UPDATE born SET n = (SELECT max(n) + 1 FROM snap) WHERE a = old.a;
  END;"""
SUM_OF_HISTORY = """SELECT (SELECT coalesce(sum(b), 0) FROM old WHERE first <= ?1 AND last >= ?1)
  + (SELECT coalesce(sum(b), 0) FROM t JOIN born USING(a) WHERE born.n <= ?1)"""


def changes(rows, rounds, touch):
    rng = random.Random(1)
    return [(rng.randrange(rows - touch), rng.randrange(1, 100)) for _ in range(rounds)]


def timed(call):
    start = time.perf_counter()
    given = call()
    return time.perf_counter() - start, given


def reedsickle(program, rows, rounds, touch):
    def run(*items):
        text = "PHASE\nSESSION a\n" + "\n".join(items) + "\n"
        return subprocess.run([program, "run", "books"], input=text, text=True, capture_output=True, check=True).stdout

    subprocess.run([program, "format", "books", "4096", "16384"], check=True, capture_output=True)
    parts = [",".join(f"({a},0)" for a in range(at, min(at + 200, rows))) for at in range(0, rows, 200)]
    run("CREATE TABLE t(a INT, b INT)", "CREATE INDEX by_a ON t(a)", *(f"INSERT INTO t VALUES {part}" for part in parts), "COMMIT")
    update = "UPDATE t SET b = b + {1} WHERE a >= {0} AND a < {2}\nCOMMIT WITH SNAPSHOT"

    def opening():
        return min(timed(lambda: run("SELECT COUNT(*) FROM SnapIds"))[0] for _ in range(5))

    first = opening()
    written, _ = timed(lambda: run(*(update.format(at, value, at + touch) for at, value in changes(rows, rounds, touch))))
    call = "CollateData('SELECT snap_id FROM SnapIds','SELECT SUM(b) FROM t','rql_sums')"
    asked, told = timed(lambda: run(call, "SELECT * FROM rql_sums"))
    lines = told.splitlines()
    at = lines.index(f"rows {rounds}") + 1
    kept = subprocess.run([program, "show", "books"], text=True, capture_output=True, check=True).stdout
    captures = next(int(line.split()[1]) for line in kept.splitlines() if line.startswith("captures"))
    behind = opening()
    print(f"opening the store, before the rounds and behind them: {first * 1e3:.0f} and {behind * 1e3:.0f} ms")
    return written - first, asked - behind, [int(line) for line in lines[at : at + rounds]], captures * 1024


def opened(path, table):
    db = sqlite3.connect(path, isolation_level=None)
    db.executescript(f"PRAGMA journal_mode=WAL; PRAGMA synchronous=FULL; {table}")
    return db


def sqlite(path, rows, rounds, touch, has_triggers, syncs):
    db = opened(path, "CREATE TABLE t(a INTEGER PRIMARY KEY, b INT);")
    db.execute("BEGIN")
    db.executemany("INSERT INTO t VALUES(?, 0)", ((i,) for i in range(rows)))
    db.execute("COMMIT")
    if has_triggers:
        db.executescript(HISTORY)
        db.executemany("INSERT INTO born VALUES(?, 1)", ((i,) for i in range(rows)))
    number_next = "INSERT INTO snap SELECT coalesce(max(n), 0) + 1 FROM snap"
    declare = number_next if has_triggers else "CREATE TABLE t{} AS SELECT * FROM t"
    ask = SUM_OF_HISTORY if has_triggers else "SELECT sum(b) FROM t{}"

    def write():
        for number, (at, value) in enumerate(changes(rows, rounds, touch), 1):
            db.execute("BEGIN")
            db.execute("UPDATE t SET b = b + ? WHERE a >= ? AND a < ?", (value, at, at + touch))
            if syncs == 2:
                db.execute("COMMIT")
                db.execute("BEGIN")
            db.execute(declare.format(number))
            db.execute("COMMIT")

    def sums():
        given = [(n,) if has_triggers else () for n in range(1, rounds + 1)]
        return [db.execute(ask.format(n), it).fetchone()[0] for n, it in enumerate(given, 1)]

    before = db.execute("PRAGMA page_count").fetchone()[0]
    written, _ = timed(write)
    asked, told = timed(sums)
    pages = db.execute("PRAGMA page_count").fetchone()[0] - before
    return written, asked, told, pages * db.execute("PRAGMA page_size").fetchone()[0]


def store_rounds(program, rounds):
    """Seconds of a commit that writes a page and declares a snapshot, the making of the store taken off."""

    def run(count):
        words = [program, "commits", str(count), "4096", "10", "pages"]
        return timed(lambda: subprocess.run(words, check=True, capture_output=True))[0]

    return (run(rounds + 1) - run(1)) / rounds


def sqlite_rounds(path, rounds, syncs):
    """Seconds of the change of a row and the insertion of another, by as many commits as syncs."""
    tables = "CREATE TABLE t(a INTEGER PRIMARY KEY, b INT); CREATE TABLE snap(n INTEGER PRIMARY KEY);"
    db = opened(path, tables + "INSERT INTO t VALUES(1, 0);")

    def write():
        for _ in range(rounds):
            db.execute("BEGIN")
            db.execute("UPDATE t SET b = b + 1 WHERE a = 1")
            if syncs == 2:
                db.execute("COMMIT")
                db.execute("BEGIN")
            db.execute("INSERT INTO snap VALUES(NULL)")
            db.execute("COMMIT")

    return timed(write)[0] / rounds


def compare(program, sizes):
    """Tells what the work took; whether all sums agree."""
    ran = {
        "reedsickle": reedsickle(program, *sizes),
        "sqlite, history by triggers, one sync": sqlite("history1.db", *sizes, True, 1),
        "sqlite, history by triggers, two syncs": sqlite("history2.db", *sizes, True, 2),
        "sqlite, a copy a snapshot, one sync": sqlite("copies1.db", *sizes, False, 1),
        "sqlite, a copy a snapshot, two syncs": sqlite("copies2.db", *sizes, False, 2),
    }
    print("{} rows, {} snapshots, {} rows changed between two".format(*sizes))
    per = 1e3 / sizes[1]
    for name, (written, asked, _, kept) in ran.items():
        times = f"{written * per:7.2f} ms a commit, {asked * per:7.2f} ms a sum"
        print(f"{name:38} {times}, {kept / 2**20:7.2f} MiB of history")
    return len({tuple(told) for _, _, told, _ in ran.values()}) == 1


def compare_rounds(program, rounds):
    ran = {
        "store_bench, two syncs": store_rounds(program, rounds),
        "sqlite, two commits, two syncs": sqlite_rounds("rounds2.db", rounds, 2),
        "sqlite, one commit, one sync": sqlite_rounds("rounds1.db", rounds, 1),
    }
    print(f"{rounds} rounds of a small change and a snapshot")
    for name, seconds in ran.items():
        print(f"{name:38} {1 / seconds:7.0f} a second")


def main():
    words = argparse.ArgumentParser()
    words.add_argument("program")
    words.add_argument("--rows", type=int, default=10_000)
    words.add_argument("--rounds", type=int, default=200)
    words.add_argument("--touch", type=int, default=100)
    words.add_argument("--store")
    words.add_argument("--commits", type=int, default=2_000)
    words = words.parse_args()
    program = os.path.abspath(words.program)
    store = words.store and os.path.abspath(words.store)
    with tempfile.TemporaryDirectory(dir=".") as folder:
        os.chdir(folder)
        agree = compare(program, (words.rows, words.rounds, words.touch))
        if store:
            compare_rounds(store, words.commits)
        os.chdir("..")
    sys.exit(not agree)


main()
