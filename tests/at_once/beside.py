#!/usr/bin/env python3
"""beside.py PROGRAM: the copier copies and the flusher writes back again and again, beside a session that commits.

One session changes a row a thousand times or more, and declares a snapshot with each tenth commit, so that the next one
captures the page, which is written back once that is copied. While it runs the times of the store's files are looked at:
in a run of two seconds or more, or of as many commits as a journal takes, the archive's and the pages' are written ten
times a second at least, told apart by their times, and not only at the run's end. It works in a folder of its own under
the current one, and ends with status 1 where this is so in none of three such runs.
"""
import os
import subprocess
import sys
import tempfile
import time

# How many commits the first run has, and after how many a snapshot is declared; each further run has four times as many
# commits as the one before, until it is long enough, or has as many as a journal takes, each of two lines.
FIRST, EACH, MORE, MOST = 1000, 10, 4, 32000

# How often a second each file is written at least, in a run of so many seconds or more.
OFTEN, LEAST, LONGEST = 10, 2, 110

# In how many runs that are long enough this may fail to be so.
TRIES = 3

FILES = ("pagelog", "maplog", "pages")


def moments_of(program, count):
    """At how many moments each file was seen to be written in a run over a new store, and how long that took, in seconds."""
    made = ["CREATE TABLE t(v INT)", "INSERT INTO t VALUES (0)", "COMMIT WITH SNAPSHOT"]
    raised = "UPDATE t SET v = v + 1"
    each = (EACH - 1) * [raised, "COMMIT"] + [raised, "COMMIT WITH SNAPSHOT"]
    lines = ["SESSION m", *made, "PHASE", "SESSION a", *(count // EACH * each)]
    subprocess.run([program, "format", "store", "64", "65536"], check=True, stdout=subprocess.DEVNULL)
    with tempfile.TemporaryFile() as given, tempfile.TemporaryFile() as got:
        given.write("".join(line + "\n" for line in lines).encode())
        given.seek(0)
        ran, began = subprocess.Popen([program, "run", "store"], stdin=given, stdout=got), time.monotonic()
        seen = {name: {os.stat(f"store/{name}").st_mtime_ns} for name in FILES}
        while ran.poll() is None and time.monotonic() < began + LONGEST:
            for name in FILES:
                seen[name].add(os.stat(f"store/{name}").st_mtime_ns)
            time.sleep(0.001)
        took = time.monotonic() - began
        if ran.poll() is None:
            ran.kill()
            ran.wait()
            sys.exit(f"it did not end within {LONGEST} seconds")
        got.seek(0)
        told = got.read().decode()
    assert ran.returncode == 0 and told.count("\ncommitted") == count + 1, (ran.returncode, told[-300:])
    return {name: len(moments) - 1 for name, moments in seen.items()}, took


def main():
    program, told, often = os.path.abspath(sys.argv[1]), [], False
    with tempfile.TemporaryDirectory(prefix="beside-", dir=".") as room:
        os.chdir(room)
        count, tries = FIRST, TRIES
        while not often and tries > 0:
            moments, took = moments_of(program, count)
            is_long = took >= LEAST or count == MOST
            often = is_long and min(moments.values()) >= OFTEN * took
            written = ", ".join(f"{name} {many} times" for name, many in moments.items())
            told.append(f"beside {count} commits in {took:.1f} seconds were written {written}")
            if is_long:
                tries -= 1
            else:
                count = min(MORE * count, MOST)
        os.chdir("..")
    print("; ".join(told))
    sys.exit(not often)


main()
