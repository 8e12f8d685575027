#!/usr/bin/env python3
"""no_threads.py PROGRAM: runs a script of three phases as a user who may start so many threads, from none to all.

The second phase has five sessions, each with a table of its own, so that it would have seven threads with its two
workers. Where one can't be started its session runs in turn with another, and the workers one after the other, or behind
the sessions; none waits for what has no thread. So the replies are those of the rules each time, and each run ends in
time. It needs root, `setpriv` and `prlimit`, and ends with status 1 at the first difference.
"""
import subprocess
import sys

SESSIONS = "abcde"

# With those of the copier and the flusher.
THREADS = len(SESSIONS) + 2

# A worker that waits for a thread that was not started does so for a quarter of an hour or more.
LONGEST = 60


def script():
    lines = ["SESSION m"]
    for name in SESSIONS:
        lines += [f"CREATE TABLE t{name}(v INT)", f"INSERT INTO t{name} VALUES (1)"]
    lines += ["COMMIT WITH SNAPSHOT", "PHASE"]
    for name in SESSIONS:
        lines += [f"SESSION {name}", f"UPDATE t{name} SET v = v + 1", "COMMIT"]
    lines += ["PHASE", "SESSION z", *(f"SELECT * FROM t{name}" for name in SESSIONS), "COMMIT"]
    return "".join(line + "\n" for line in lines)


def replies():
    lines = ["phase 1", "session m", "item 1", *(len(SESSIONS) * ["ok", "ok 1"]), "committed as 1", "phase 2"]
    for name in SESSIONS:
        lines += [f"session {name}", "item 1", "ok 1", "committed"]
    return [*lines, "phase 3", "session z", "item 1", *(len(SESSIONS) * ["rows 1", "2"]), "committed"]


def alone(threads, *words):
    """The words run by a user who may have so many threads."""
    user = "setpriv --reuid=65534 --regid=65534 --clear-groups".split()
    return [*user, "prlimit", f"--nproc={threads}", *words]


def main():
    thread = "import threading; threading.Thread(target=print).start()"
    made = subprocess.run(alone(1, "python3", "-c", thread), capture_output=True, text=True)
    assert "can't start new thread" in made.stderr, made.stderr
    for threads in range(1, THREADS + 1):
        words = alone(threads, sys.argv[1], "run")
        done = subprocess.run(words, input=script(), text=True, capture_output=True, timeout=LONGEST)
        told, journal = done.stdout.split("journal\n")
        assert done.returncode == 0 and told.splitlines() == replies(), (threads, done.returncode, done.stdout)
        lines, wanted = journal.splitlines(), sorted(f"2 {name} 1 done" for name in SESSIONS)
        assert (lines[0], sorted(lines[1:-1]), lines[-1]) == ("1 m 1 done as 1", wanted, "3 z 1 done"), (threads, journal)
    print(f"the same replies with one thread, with {THREADS}, and with each number between")


main()
