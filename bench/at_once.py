#!/usr/bin/env python3
"""at_once.py PROGRAM [SESSIONS]: wall time of work done by so many sessions at once, beside one session that does all of it.

Readers ask a sum as of one snapshot; writers each change a table of their own and commit. Both over the files of a
folder, the opening taken off. Last, how many commits with a snapshot one writer makes a second, alone and beside as
many readers, who end behind it. Ratios are of one run. It works in a folder of its own under the current one.
"""
import os
import subprocess
import sys
import tempfile
import time

ROWS, ASKS, WRITES, COMMITS, LONGER = 10_000, 10, 30, 500, 300


def run(program, lines):
    text = "\n".join(lines) + "\n"
    start = time.perf_counter()
    subprocess.run([program, "run", "books"], input=text, text=True, capture_output=True, check=True)
    return time.perf_counter() - start


def opening(program):
    """Seconds that a run takes which asks for nothing more."""
    return run(program, ["PHASE", "SESSION a", "SELECT * FROM SnapIds"])


def both(program, sessions, part):
    """Seconds of the parts done at once, and done one after the other by one session."""
    at_once = ["PHASE"] + [line for k in range(sessions) for line in [f"SESSION s{k}", *part(k)]]
    alone = ["PHASE", "SESSION a"] + [line for k in range(sessions) for line in part(k)]
    opened = opening(program)
    return run(program, at_once) - opened, run(program, alone) - opened


def writer_beside(program, readers):
    """How many commits a second one writer makes beside readers of the past, until its last write of the log."""
    writer = ["SESSION w", *["UPDATE t0 SET b = b + 1 WHERE a < 100", "COMMIT WITH SNAPSHOT"] * COMMITS]
    others = [line for k in range(readers) for line in [f"SESSION r{k}", *["SELECT AS OF 1 SUM(b) FROM t"] * LONGER]]
    opened, start = opening(program), time.time()
    run(program, ["PHASE", *writer, *others])
    written = os.stat(os.path.join("books", "log")).st_mtime
    assert not readers or written < time.time() - 0.05, "the readers ended first"
    return COMMITS / (written - start - opened)


def main():
    program, sessions = os.path.abspath(sys.argv[1]), int(sys.argv[2]) if len(sys.argv) > 2 else 8
    with tempfile.TemporaryDirectory(dir=".") as folder:
        os.chdir(folder)
        subprocess.run([program, "format", "books", "16384", "65536"], check=True, capture_output=True)
        rows = [",".join(f"({a},0)" for a in range(at, at + 200)) for at in range(0, ROWS, 200)]
        for name in ["t", *(f"t{k}" for k in range(sessions))]:
            made = rows if name == "t" else rows[:5]
            run(program, ["PHASE", "SESSION a", f"CREATE TABLE {name}(a INT, b INT)", *(f"INSERT INTO {name} VALUES {r}" for r in made), "COMMIT WITH SNAPSHOT"])
        reads = both(program, sessions, lambda k: ["SELECT AS OF 1 SUM(b) FROM t"] * ASKS)
        writes = both(program, sessions, lambda k: [f"UPDATE t{k} SET b = b + 1 WHERE a < 100", "COMMIT"] * WRITES)
        rate, slowed = (writer_beside(program, readers) for readers in (0, sessions))
        os.chdir("..")
    for name, (at_once, alone) in {"readers of the past": reads, "writers": writes}.items():
        print(f"{sessions} {name}: {at_once:.3f} s at once, {alone:.3f} s one after the other, {alone / at_once:.2f} times")
    print(f"1 writer: {rate:.0f} commits a second alone, {slowed:.0f} beside {sessions} readers, {slowed / rate:.2f} of it")


main()
