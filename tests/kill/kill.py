#!/usr/bin/env python3
"""kill.py PROGRAM [KILLS]: kills the program so often while it commits with snapshots, and opens the store each time.

Item k of all items inserts the row (k, k * k) and declares a snapshot. So however a run ended, a store that shows N as
its newest snapshot has to hold the rows up to N - 1 now (snapshot 1 is of the empty table), and as of each snapshot S
the rows up to S - 1: counts and sums are worked out here. What an earlier look has shown may not be lost. A killed
program loses nothing that the system has taken from it, so this shows openings and what is written when, and not that
it syncs. In a third of the cycles a run that only looks is killed too, while it opens or goes on to copy. Behind each
the table is asked now and as of every snapshot, by one call that goes through all and by a SELECT for some: of the
store, or, in half of the cycles, of a copy, so that on the store nothing runs to its end before the next kill. A run that
ends before its kill does not count. It works in a folder of its own under the current one, and ends with status 1 at the
first difference, or where of twenty runs less than one is killed.
"""
import os
import random
import shutil
import signal
import subprocess
import sys
import tempfile
import time

FIRST, LONG = 100, 40


def script(items):
    return ("PHASE\nSESSION a\n" + "\n".join(items) + "\n").encode()


def commits(first, count):
    return script(f"INSERT INTO t VALUES ({k},{k * k});\nCOMMIT WITH SNAPSHOT '{k}';" for k in range(first, first + count))


def looks(newest):
    some = sorted({newest, *random.sample(range(2, newest + 1), min(5, newest - 1))})
    items = [f"SELECT AS OF {s} COUNT(*), SUM(k), SUM(v) FROM t;" for s in some]
    return some, script([*items, "SELECT COUNT(*), SUM(k), SUM(v) FROM t;\nCOMMIT;"])


def row(count):
    return f"{count},{sum(range(1, count + 1))},{sum(k * k for k in range(1, count + 1))}"


def run(program, words, given=b""):
    """The lines that the program writes; it has to end well."""
    ran = subprocess.run([program, *words], input=given, stdout=subprocess.PIPE, timeout=110)
    if ran.returncode != 0:
        sys.exit(f"{words} ended with {ran.returncode}: {ran.stdout.decode()[-300:]}")
    return ran.stdout.decode().splitlines()


def span_of(program, dir, given):
    begun = time.monotonic()
    run(program, ["run", dir], given)
    return time.monotonic() - begun


def is_cut_off(program, dir, given, span):
    """Runs the script and kills the program within so many seconds; whether it was still at work."""
    ran = subprocess.Popen([program, "run", dir], stdin=subprocess.PIPE, stdout=subprocess.DEVNULL)
    ran.stdin.write(given)
    ran.stdin.close()
    time.sleep(random.uniform(0, span))
    was_at_work = ran.poll() is None
    ran.send_signal(signal.SIGKILL)
    ran.wait()
    return was_at_work


def newest_of(program, dir, known):
    shown = dict(line.split() for line in run(program, ["show", dir]))
    newest = int(shown["newest"])
    if newest < known:
        sys.exit(f"snapshot {known} was there, and now the newest is {newest}")
    return newest


def held(program, dir, newest):
    asked, given = looks(newest)
    lines = run(program, ["run", dir], given)
    found = [line for line, before in zip(lines[1:], lines) if before == "rows 1"]
    wanted = [row(s - 1) for s in [*asked, newest]]
    if found != wanted:
        sys.exit(f"newest {newest}, snapshots {asked}: found {found}, wanted {wanted}")


def all_held(program, dir, newest):
    ask = "SELECT current_snapshot() AS n, COUNT(*) AS c, SUM(k) AS s, SUM(v) AS q FROM t"
    call = f"CollateData('SELECT snap_id FROM SnapIds','{ask}','rql_all');"
    lines = run(program, ["run", dir], script([call, "SELECT * FROM rql_all;"]))
    at = lines.index(f"rows {newest}") + 1
    if lines[at : at + newest] != [f"{n},{row(n - 1)}" for n in range(1, newest + 1)]:
        sys.exit(f"as of all {newest} snapshots: {lines[at : at + newest]}")


def is_right(program, dir, known):
    held(program, dir, known)
    all_held(program, dir, known)


def copy_is_right(program, dir, known):
    """That of a copy, so that the next run begins with what the killed one left."""
    copy = f"{dir}-copy"
    shutil.copytree(dir, copy)
    is_right(program, copy, known)
    shutil.rmtree(copy)


def main():
    program, kills = os.path.abspath(sys.argv[1]), int(sys.argv[2]) if len(sys.argv) > 2 else 50
    random.seed(int(os.environ.get("SEED", "1")))
    room = tempfile.mkdtemp(prefix="kill-", dir=".")
    dir = f"{room}/store"
    try:
        run(program, ["format", dir, "256", "65536"])
        run(program, ["run", dir], script(["CREATE TABLE t(k INT, v INT);\nCOMMIT WITH SNAPSHOT;"]))
        run(program, ["run", dir], commits(1, FIRST))
        span = min(span_of(program, dir, commits(FIRST + 1 + at, LONG)) for at in (0, LONG))
        known = newest_of(program, dir, FIRST + 1 + 2 * LONG)
        opening, killed, looked, parted = span_of(program, dir, looks(known)[1]), 0, 0, 0
        done = 0
        while killed < kills:
            if done == 20 * kills:
                sys.exit(f"of {done} runs only {killed} were killed before their end")
            done += 1
            was_cut, before = is_cut_off(program, dir, commits(known, LONG), span), known
            known = newest_of(program, dir, known)
            killed += was_cut
            parted += was_cut and before < known < before + LONG
            if random.random() < 1 / 3:
                looked += is_cut_off(program, dir, looks(known)[1], opening)
                known = newest_of(program, dir, known)
            (is_right if random.random() < 1 / 2 else copy_is_right)(program, dir, known)
        is_right(program, dir, known)
        if parted == 0:
            sys.exit(f"of {killed} killed runs none left some of its commits and lacked others, so nothing was shown")
        print(
            f"{done} runs, {killed} of them killed before their end, and {looked} that only looked; "
            f"{known} snapshots, each as it was declared, and each store opened to a beginning of the commits"
        )
    finally:
        shutil.rmtree(room, ignore_errors=True)


main()
