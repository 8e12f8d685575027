#!/usr/bin/env python3
"""rest.py PROGRAM: the copier and the flusher come again and again while a session is at work, and rest in between.

One session asks all pairs of rows of two tables, time after time, and changes nothing. Beside its thread, which is the
first of the process, there are those of the two workers, of which the flusher's is started first. The copier rests for a
millisecond between two rounds and the flusher for ten, so the one gives its processor up less than twice in a
millisecond and the other less than twice in ten, however slow or busy the machine is; and their rounds are short, so
that they use a processor for less than an eighth of the time. A worker that rests for less gives it up more often, and
one that does not rest uses all that it gets. Nor does one rest for long: the copier gives it up a hundred and twenty
times a second at least, and the flusher thirty times. It runs over a store, in a folder of its own under the current
one, and ends with status 1 where this is so in none of three runs.
"""
import os
import re
import subprocess
import sys
import tempfile
import time

ROWS, ASKS = 500, 120

WORKERS = 2

# How often in a second the flusher rests, and the copier, at least and at most; how much of it they use a processor.
FLUSHES, COPIES, PART = (30, 200), (120, 2000), 1 / 8

# In seconds.
LONGEST, TICK = 110, 1 / os.sysconf("SC_CLK_TCK")

RUNS = 3


def inserts(table):
    return [f"INSERT INTO {table} VALUES {','.join(f'({k})' for k in range(at, at + 50))}" for at in range(0, ROWS, 50)]


def script(lines):
    return "".join(line + "\n" for line in lines).encode()


def making():
    return script(["SESSION m", "CREATE TABLE a(x INT)", *inserts("a"), "CREATE TABLE b(y INT)", *inserts("b"), "COMMIT"])


def asking():
    return script(["SESSION a", *(ASKS * ["SELECT COUNT(*), MIN(x), MAX(y) FROM a, b WHERE x < y"]), "COMMIT"])


def text_of(thread, name):
    with open(f"{thread}/{name}") as file:
        return file.read()


def looked_at(pid):
    """How often each thread of a process, which may be ending, has waited, and how long it used a processor."""
    found = {}
    try:
        for name in os.listdir(f"/proc/{pid}/task"):
            thread = f"/proc/{pid}/task/{name}"
            waited = re.search(r"^voluntary_ctxt_switches:\s*(\d+)$", text_of(thread, "status"), re.M)[1]
            # The 14th and the 15th field, of which the second ends with the parenthesis.
            user, system = text_of(thread, "stat").rpartition(")")[2].split()[11:13]
            found[int(name)] = int(waited), TICK * (int(user) + int(system))
    except (FileNotFoundError, ProcessLookupError):
        pass
    return found


def workers_of(program):
    """What is told of the threads beside the first in a run, and how long it took, in seconds."""
    with tempfile.TemporaryFile() as given, tempfile.TemporaryFile() as got:
        given.write(asking())
        given.seek(0)
        seen, began = {}, time.monotonic()
        ran = subprocess.Popen([program, "run", "store"], stdin=given, stdout=got)
        while ran.poll() is None and time.monotonic() < began + LONGEST:
            seen.update(looked_at(ran.pid))
            time.sleep(0.01)
        took = time.monotonic() - began
        if ran.poll() is None:
            ran.kill()
            ran.wait()
            sys.exit(f"it did not end within {LONGEST} seconds")
        got.seek(0)
        told = got.read().decode().splitlines()
    assert ran.returncode == 0 and told.count(f"{ROWS * (ROWS - 1) // 2},0,{ROWS - 1}") == ASKS, (ran.returncode, told[-9:])
    return [those for thread, those in sorted(seen.items()) if thread != ran.pid], took


def main():
    program, told, rest = os.path.abspath(sys.argv[1]), [], False
    with tempfile.TemporaryDirectory(prefix="rest-", dir=".") as room:
        os.chdir(room)
        subprocess.run([program, "format", "store", "64", "4096"], check=True, stdout=subprocess.DEVNULL)
        subprocess.run([program, "run", "store"], input=making(), check=True, stdout=subprocess.DEVNULL)
        while not rest and len(told) < RUNS:
            workers, took = workers_of(program)
            waits, used = [waits for waits, _ in workers], sum(used for _, used in workers)
            often = all(least <= count / took < most for count, (least, most) in zip(waits, (FLUSHES, COPIES)))
            rest = often and len(waits) == WORKERS and used < PART * took
            told.append(f"the workers waited {waits} times and used a processor for {used:.2f} of {took:.2f} seconds")
        os.chdir("..")
    print("; ".join(told))
    sys.exit(not rest)


main()
