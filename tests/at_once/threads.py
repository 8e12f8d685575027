#!/usr/bin/env python3
"""threads.py PROGRAM: a phase of sixteen sessions has a thread for each of them, and one for each of the two workers.

Each session asks all pairs of rows of two tables some times over, which takes it far longer than it takes to start them
all, and holds no lock meanwhile. The threads of the process are counted while it runs: at some moment there are
eighteen. Phases without a session stand before theirs, so that it is a late one. The replies are worked out here. It
runs in memory and over a store. So does a load run its four sessions of each round beside one another: at some moment
of many short rounds there are more threads than a session and the workers. It works in a folder of its own under the
current one, and ends with status 1 at the first difference, or where none of six runs shows so many threads.
"""
import os
import subprocess
import sys
import tempfile
import time

NAMES, ROWS, ASKS = "abcdefghijklmnop", 500, 10

# The copier and the flusher.
WORKERS = 2

# Phases without a session, between the tables and the sixteen.
EMPTY = 100

# Sessions of a round of a load, and rounds.
LOADED, ROUNDS = 4, 300

# A machine that is busy elsewhere may have a session end before another begins, so there are more runs than one.
RUNS, LONGEST = 6, 110

# Between two looks at the threads, in seconds.
TICK = 0.001


def inserts(table):
    return [f"INSERT INTO {table} VALUES {','.join(f'({k})' for k in range(at, at + 50))}" for at in range(0, ROWS, 50)]


def script():
    made = ["CREATE TABLE a(x INT)", *inserts("a"), "CREATE TABLE b(y INT)", *inserts("b")]
    lines = ["SESSION m", *made, "COMMIT", *((EMPTY + 1) * ["PHASE"])]
    for name in NAMES:
        lines += [f"SESSION {name}", *(ASKS * ["SELECT COUNT(*), MIN(x), MAX(y) FROM a, b WHERE x < y"]), "COMMIT"]
    return "".join(line + "\n" for line in lines).encode()


def replies():
    made = ["ok", *(ROWS // 50 * ["ok 50"])]
    lines = ["phase 1", "session m", "item 1", *made, *made, "committed", *(f"phase {n}" for n in range(2, EMPTY + 3))]
    for name in NAMES:
        lines += [f"session {name}", "item 1", *(ASKS * ["rows 1", f"{ROWS * (ROWS - 1) // 2},0,{ROWS - 1}"]), "committed"]
    return lines


def threads_of(ran):
    """The threads of a process that may be ending."""
    try:
        return len(os.listdir(f"/proc/{ran.pid}/task"))
    except (FileNotFoundError, ProcessLookupError):
        return 0


def most_threads(program, words, script=b""):
    """The most threads that were seen at one time in a run, and what it told."""
    with tempfile.TemporaryFile() as given, tempfile.TemporaryFile() as got:
        given.write(script)
        given.seek(0)
        ran, most, until = subprocess.Popen([program, *words], stdin=given, stdout=got), 0, time.monotonic() + LONGEST
        while ran.poll() is None and time.monotonic() < until:
            most = max(most, threads_of(ran))
            time.sleep(TICK)
        if ran.poll() is None:
            ran.kill()
            ran.wait()
            sys.exit(f"{words}: it did not end within {LONGEST} seconds")
        got.seek(0)
        told = got.read().decode()
    assert ran.returncode == 0, (words, ran.returncode, told[-300:])
    return most, told


def most_of_sixteen(program, words):
    """The most threads at one time of a run of the script, whose transcript is the one."""
    most, told = most_threads(program, words, script())
    text, journal = told.split("journal\n")
    assert text.splitlines() == replies(), (words, text[-300:])
    wanted = ["1 m 1 done", *(f"{EMPTY + 2} {name} 1 done" for name in NAMES)]
    assert sorted(journal.splitlines()) == sorted(wanted), journal
    return most


def main():
    program, wanted, seen = os.path.abspath(sys.argv[1]), len(NAMES) + WORKERS, []
    with tempfile.TemporaryDirectory(prefix="threads-", dir=".") as room:
        os.chdir(room)
        for words in (["run"], ["run", "store"]):
            most, runs = 0, 0
            while most < wanted and runs < RUNS:
                subprocess.run([program, "format", "store", "64", "4096"], check=True, stdout=subprocess.DEVNULL)
                most, runs = max(most, most_of_sixteen(program, words)), runs + 1
            assert most >= wanted, (words, "the most threads at one time, and those wanted", most, wanted)
            seen.append(f"{most} threads at once in {runs} runs of retro {' '.join(words)}")
        os.chdir("..")
    most, told = most_threads(program, ["load", "1", str(ROUNDS)])
    done = LOADED * ROUNDS + ROUNDS + 2
    assert told.startswith(f"load 1 {ROUNDS}\ncommitted {done}\nsnapshots {ROUNDS + 1}\n"), told
    assert most > 1 + WORKERS, ("the most threads at one time of a load", most)
    print(f"{len(NAMES)} sessions: {', '.join(seen)}; {most} in a load")


main()
