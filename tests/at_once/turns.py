#!/usr/bin/env python3
"""turns.py PROGRAM: a session that waits for its turn leaves the processor to the others.

Sixteen sessions change tables of their own, or read what a table held at a snapshot, whose pages lie in the archive;
all on one processor: what they use of it is at most so many times what one session uses that does the same, and a
second. Where a session that waits, for the pages or for the archive, keeps the processor until it is taken from it, the
sixteen use many times that. It works in a folder of its own under the current one, and ends with status 1 at the first
difference.
"""
import math
import os
import resource
import subprocess
import sys
import tempfile

NAMES, CHANGES, ASKS, ROWS = "abcdefghijklmnop", 200, 40, 60

# How many times what one session uses the sixteen may use.
TIMES = 8

# In seconds; the system counts what a program may use in whole ones.
LONGEST, LEAST = 110, 1


def changing(sessions):
    lines = ["SESSION m"]
    for name in NAMES:
        lines += [f"CREATE TABLE t{name}(v INT)", f"INSERT INTO t{name} VALUES (0)"]
    lines += ["COMMIT", "PHASE"]
    for names in sessions:
        lines.append(f"SESSION {names[0]}")
        for name in names:
            lines += CHANGES * [f"UPDATE t{name} SET v = v + 1", "COMMIT"]
    return lines + ["PHASE", "SESSION m", *(f"SELECT * FROM t{name}" for name in NAMES), "COMMIT"]


def changed():
    return ["session m", "item 1", *(len(NAMES) * ["rows 1", str(CHANGES)]), "committed"]


def reading(sessions):
    """Each row takes a page, and is changed behind the snapshot."""
    wide = ",".join(4 * ["'" + 200 * "w" + "'"])
    made = [f"INSERT INTO p VALUES ({row},{wide})" for row in range(ROWS)]
    lines = ["SESSION m", "CREATE TABLE p(k INT, a TEXT, b TEXT, c TEXT, d TEXT)", *made, "COMMIT WITH SNAPSHOT"]
    lines += ["UPDATE p SET k = 0 - 1", "COMMIT", "PHASE"]
    for names in sessions:
        lines += [f"SESSION {names[0]}", *(len(names) * ASKS * ["SELECT AS OF 1 SUM(k) FROM p"])]
    return lines + ["PHASE", "SESSION m", "SELECT SUM(k) FROM p", "COMMIT"]


def read():
    return ["session m", "item 1", "rows 1", str(-ROWS), "committed"]


def used(program, words, lines, past, replies, most):
    """What the run uses of one processor, in seconds, where it tells the sum of the past so often; it is ended where that
    is more than allowed."""
    def bounded():
        os.sched_setaffinity(0, {min(os.sched_getaffinity(0))})
        resource.setrlimit(resource.RLIMIT_CPU, (most, most))

    subprocess.run([program, "format", "store", "256", "4096"], check=True, stdout=subprocess.DEVNULL)
    before, script = resource.getrusage(resource.RUSAGE_CHILDREN), "".join(line + "\n" for line in lines).encode()
    ran = subprocess.run([program, *words], input=script, stdout=subprocess.PIPE, preexec_fn=bounded, timeout=LONGEST)
    after = resource.getrusage(resource.RUSAGE_CHILDREN)
    assert ran.returncode == 0, f"status {ran.returncode}, {most} seconds of a processor allowed"
    shown, told = ran.stdout.decode().split("journal\n")[0].split("phase 3\n")
    assert told.splitlines() == replies, told
    assert shown.splitlines().count(str(ROWS * (ROWS - 1) // 2)) == past, shown[-300:]
    return after.ru_utime - before.ru_utime + after.ru_stime - before.ru_stime


def main():
    program = os.path.abspath(sys.argv[1])
    with tempfile.TemporaryDirectory(prefix="turns-", dir=".") as room:
        os.chdir(room)
        for what, words, script, past, replies in (
            ("change tables", ["run"], changing, 0, changed()),
            ("read the past", ["run", "store"], reading, len(NAMES) * ASKS, read()),
        ):
            alone = used(program, words, script([NAMES]), past, replies, LONGEST)
            together = used(program, words, script(list(NAMES)), past, replies, LEAST + math.ceil(TIMES * alone))
            print(f"sixteen sessions that {what} use one processor for {together:.2f} seconds, and one for {alone:.2f}")
        os.chdir("..")


main()
