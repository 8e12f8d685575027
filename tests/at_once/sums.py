#!/usr/bin/env python3
"""sums.py PROGRAM [RUNS]: sessions at once in one phase, in memory and over a store, many times.

Sixteen sessions change tables of their own: the replies stand in the script's order, and the journal has each line
once, in any order. Two sessions raise the one row of a table by 1, fifty times each: each of the hundred is committed,
or refused for the other's sake, and the row was raised once for each that was committed. It works in a folder of its
own under the current one, and ends with status 1 at the first difference."""
import os
import subprocess
import sys
import tempfile

NAMES, RAISES = "abcdefghijklmnop", 50


def run(program, words, lines):
    """The lines of the transcript and those of the journal."""
    script = "".join(line + "\n" for line in lines).encode()
    done = subprocess.run([program, *words], input=script, stdout=subprocess.PIPE, timeout=110)
    assert done.returncode == 0, (words, done.returncode, done.stdout[-300:])
    text = done.stdout.decode().splitlines()
    at = text.index("journal")
    return text[:at], text[at + 1 :]


def apart(program, words):
    """A session of its own adds 10 to the row 1 of each table, and then doubles it."""
    script, replies = ["SESSION m"], ["phase 1", "session m", "item 1"]
    for name in NAMES:
        script += [f"CREATE TABLE t{name}(v INT)", f"INSERT INTO t{name} VALUES (1)"]
        replies += ["ok", "ok 1"]
    script += ["COMMIT", "PHASE"]
    replies += ["committed", "phase 2"]
    for name in NAMES:
        script += [f"SESSION {name}", f"UPDATE t{name} SET v = v + 10", "COMMIT"]
        script += [f"UPDATE t{name} SET v = v * 2", "COMMIT"]
        replies += [f"session {name}", "item 1", "ok 1", "committed", "item 2", "ok 1", "committed"]
    script += ["PHASE", "SESSION m", *(f"SELECT * FROM t{name}" for name in NAMES), "ROLLBACK"]
    replies += ["phase 3", "session m", "item 1", *(len(NAMES) * ["rows 1", "22"]), "rolled back"]
    told, journal = run(program, words, script)
    assert told == replies, (told, replies)
    wanted = [f"2 {name} {item} done" for name in NAMES for item in (1, 2)]
    assert (journal[0], journal[-1]) == ("1 m 1 done", "3 m 1 rolled back"), journal
    assert sorted(journal[1:-1]) == sorted(wanted), journal


def raised(program, words):
    script = ["SESSION maker", "CREATE TABLE t(v INT)", "INSERT INTO t VALUES (0)", "COMMIT WITH SNAPSHOT", "PHASE"]
    for name in "ab":
        script += [f"SESSION {name}", *(RAISES * ["UPDATE t SET v = v + 1", "COMMIT"])]
    told, journal = run(program, words, [*script, "PHASE", "SESSION reader", "SELECT * FROM t", "ROLLBACK"])
    middle = told.index("session b")
    refused = sum(line.startswith("refused 8 Overlap b ") for line in told[:middle])
    refused += sum(line.startswith("refused 8 Overlap a ") for line in told[middle:])
    committed = told.count("committed")
    value = int(told[told.index("rows 1") + 1])
    assert 0 < committed == value and committed + refused == 2 * RAISES, (committed, refused, value)
    assert sum(line.startswith("2 ") and line.endswith(" done") for line in journal) == committed, journal


def main():
    program, runs = os.path.abspath(sys.argv[1]), int(sys.argv[2]) if len(sys.argv) > 2 else 10
    with tempfile.TemporaryDirectory(prefix="sums-", dir=".") as room:
        os.chdir(room)
        for words in (["run"], ["run", "store"]):
            for _ in range(runs):
                for judged in (apart, raised):
                    subprocess.run([program, "format", "store", "64", "4096"], check=True, stdout=subprocess.DEVNULL)
                    judged(program, words)
        os.chdir("..")
    print(f"{runs} runs in memory and {runs} over a store: sixteen sessions apart, two on one row that lose no raise")


main()
