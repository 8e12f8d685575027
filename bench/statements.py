#!/usr/bin/env python3
"""statements.py PROGRAM: statements of the program in memory beside those of SQLite in memory, in one run.

The tables: t of 3,000 and then of 60,000 rows (k, v), k in turn one of a hundred numbers and v all different, and u and w
of 200 rows each. Each statement is given as text by one session in one transaction, 400 times over 3,000 rows and 20 over
60,000; the join, which does not read t, 400 times at both, and the INSERT, which edits pages of one commit, 100 times. The
time of the same run without it is taken off; SQLite is given the same texts, and keeps none of them prepared. Seconds are
of the wall, the least of three runs. Answers that differ end it with status 1.
"""
import sqlite3
import subprocess
import sys
import time

TUPLES = ",".join(f"({n},{n})" for n in range(250))
# Each by its name and its text.
STATEMENTS = [
    ("filter", "SELECT v FROM t WHERE k = 3 AND v < 500"),
    ("sum", "SELECT SUM(v) FROM t"),
    ("group", "SELECT k, COUNT(*), SUM(v) FROM t GROUP BY k ORDER BY k LIMIT 3"),
    ("update of one in a hundred", "UPDATE t SET v = v + 1 WHERE k = 3"),
    ("sort", "SELECT v FROM t ORDER BY v DESC LIMIT 3"),
    ("join of 200 by 200", "SELECT COUNT(*) FROM u, w WHERE u.v = w.v"),
    ("insert of 250 rows", f"INSERT INTO t VALUES {TUPLES}"),
]


def inserts(table, rows):
    pairs = [f"({n % 100},{n * 7907 % rows})" for n in range(rows)]
    statements = [f"INSERT INTO {table} VALUES {','.join(pairs[at:at + 200])}" for at in range(0, rows, 200)]
    # A commit has at most 1,024 pages.
    return [line for at in range(0, len(statements), 50) for line in statements[at : at + 50] + ["COMMIT"]]


def made(rows):
    tables = [f"CREATE TABLE {name}(k INT, v INT)" for name in "tuw"]
    return tables + ["COMMIT"] + inserts("t", rows) + inserts("u", 200) + inserts("w", 200)


def least(call):
    return min((call() for _ in range(3)), key=lambda it: it[0])


def reedsickle(program, lines):
    """Seconds of a run of the lines, and what it wrote."""
    text = "SESSION a\n" + "\n".join(lines) + "\nCOMMIT\n"
    start = time.perf_counter()
    ran = subprocess.run([program, "run"], input=text, text=True, capture_output=True, check=True)
    return time.perf_counter() - start, ran.stdout.splitlines()


def rows_told(lines):
    """The rows of the last answer of a transcript, none where its last reply is `ok`."""
    end = max(at for at, line in enumerate(lines) if line == "committed")
    last = max(at for at in range(end) if lines[at].startswith(("rows ", "ok")))
    if lines[last].startswith("ok"):
        return []
    return [tuple(map(int, line.split(","))) for line in lines[last + 1 : end]]


def sqlite(lines, text, times):
    """Seconds of the statement so many times, and its last answer."""
    db = sqlite3.connect(":memory:", isolation_level=None, cached_statements=0)
    db.execute("BEGIN")
    for line in lines:
        if line != "COMMIT":
            db.execute(line)
    start = time.perf_counter()
    for _ in range(times):
        told = db.execute(text).fetchall()
    return time.perf_counter() - start, told


def times_of(name, rows):
    if name.startswith("insert"):
        return 100
    return 400 if name.startswith("join") else 1_200_000 // rows


def compare(program, rows):
    lines = made(rows)
    alone, _ = least(lambda: reedsickle(program, lines))
    agree = True
    print(f"{rows} rows, microseconds a statement: here, SQLite, and how many times as long it takes here")
    for name, text in STATEMENTS:
        times = times_of(name, rows)
        here, told = least(lambda: reedsickle(program, lines + [text] * times))
        there, rows_there = least(lambda: sqlite(lines, text, times))
        mine, its = (here - alone) / times * 1e6, there / times * 1e6
        agree = agree and rows_told(told) == rows_there
        print(f"  {name:28} {mine:10.0f} {its:10.0f} {mine / its:7.2f}")
    return agree


def main():
    if len(sys.argv) != 2:
        sys.exit(__doc__)
    sys.exit(not all([compare(sys.argv[1], rows) for rows in (3_000, 60_000)]))


main()
