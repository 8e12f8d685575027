#!/usr/bin/env python3
"""full_log.py PROGRAM: 20,000 commits in one run, whose records are longer than a half of the log, so that a session has
to copy, write back and cut in between; every hundredth declares a snapshot. Counts and sums, now and as of two snapshots,
in that run and in one behind it, are worked out here. It works in a folder of its own under the current one."""
import os
import shutil
import subprocess
import sys
import tempfile

COMMITS = 20_000


def run(program, *words, script=""):
    ran = subprocess.run([program, *words], input=script.encode(), stdout=subprocess.PIPE, timeout=110)
    return ran.returncode, ran.stdout.decode().splitlines()


def main():
    program = os.path.abspath(sys.argv[1])
    items = ["CREATE TABLE t(k INT, v INT)\nCOMMIT WITH SNAPSHOT"]
    for k in range(COMMITS):
        items.append(f"INSERT INTO t VALUES ({k},{k * k})\nCOMMIT{' WITH SNAPSHOT' if k % 100 == 99 else ''}")
    # (snapshot 2 is declared behind a hundred rows, and 150 behind 14,900)
    looks = [f"SELECT AS OF {s} COUNT(*), SUM(k), SUM(v) FROM t" for s in (2, 150)]
    looks.append("SELECT COUNT(*), SUM(k), SUM(v) FROM t\nCOMMIT")
    wanted = [f"{n},{sum(range(n))},{sum(k * k for k in range(n))}" for n in (100, 14_900, COMMITS)]
    room = tempfile.mkdtemp(prefix="full-", dir=".")
    try:
        store = f"{room}/store"
        scripts = ["SESSION a\n" + "\n".join(it) + "\n" for it in ([*items, *looks], looks)]
        if run(program, "format", store, "2048", "16384")[0] != 0:
            sys.exit("no store was made")
        for script in scripts:
            status, lines = run(program, "run", store, script=script)
            found = [line for line, before in zip(lines[1:], lines) if before == "rows 1"]
            if status != 0 or found != wanted:
                sys.exit(f"status {status}, found {found}, wanted {wanted}")
        print(f"{COMMITS} commits, and as of two snapshots, twice")
    finally:
        shutil.rmtree(room, ignore_errors=True)


main()
