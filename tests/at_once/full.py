#!/usr/bin/env python3
"""full.py PROGRAM: sessions at once whose commits fill the log again and again, so that each makes room beside the others.

Each of four sessions has a table of its own, whose rows fill a page each, and changes all of them in every transaction:
seventeen records of those are longer than the log's region, and they come faster than the flusher writes pages back.
Half of the commits declare a snapshot, so that there is to copy before the log is cut. Every reply, the sums at the end
and those as of three snapshots are worked out here, these by the journal; what is asked is that no session waits for ever.
It works in a folder of its own under the current one, and ends with status 1 at the first difference, or where a run takes
too long.
"""
import os
import subprocess
import sys
import tempfile
import time

# A transaction edits 1,024 pages at most.
NAMES, PAGES, CHANGES = "abcd", 1000, 16

# A row of a page: four texts of 200 bytes, and a number.
TEXT, TEXTS = "x" * 200, 4

# Rows of an INSERT, since a line has 4,096 bytes at most; and INSERTs of a transaction.
EACH, MANY = 4, 125

LONGEST = 110

# Changes of one table in the last run, each captured: with those before, more than 100,000 captures.
MORE = 70

# The first of the snapshots, one of the middle, and the last.
LOOKED_AT = (1, len(NAMES) * CHANGES // 4, len(NAMES) * CHANGES // 2)


def run(program, *words, lines=()):
    script = "".join(line + "\n" for line in lines).encode()
    done = subprocess.run([program, *words], input=script, stdout=subprocess.PIPE, timeout=LONGEST)
    assert done.returncode == 0, (words, done.returncode, done.stdout[-300:])
    return done.stdout.decode().splitlines()


def making(name):
    row = ",".join(["0", *(TEXTS * [f"'{TEXT}'"])])
    columns = ", ".join(["v INT", *(f"t{k} TEXT" for k in range(TEXTS))])
    inserts = MANY * [f"INSERT INTO {name} VALUES {','.join(EACH * [f'({row})'])}"] + ["COMMIT"]
    return [f"SESSION {name}", f"CREATE TABLE {name}({columns})", "COMMIT", *(PAGES // EACH // MANY * inserts)]


def changing(name):
    ends = ["COMMIT", "COMMIT WITH SNAPSHOT"]
    return [f"SESSION {name}", *(line for k in range(CHANGES) for line in (f"UPDATE {name} SET v = v + 1", ends[k % 2]))]


def sum_line(name, changes):
    return f"{PAGES},{PAGES * changes}"


def asking(snapshot):
    return [f"SELECT AS OF {snapshot} COUNT(*), SUM(v) FROM {name}" for name in NAMES]


def sums_at(snapshot, journal):
    """The sums as of a snapshot: each commit up to the one that declared it added 1 to each row of its session's table."""
    place = next(at for at, line in enumerate(journal) if line.endswith(f" done as {snapshot}"))
    done = [line.split(" ")[1] for line in journal[: place + 1] if " done" in line]
    return [sum_line(name, done.count(name)) for name in NAMES]


def changed_more(program):
    """A run that changes one table again and again, each time behind a snapshot. What the first and the last snapshot hold of
    the table is read by the next run, whose page tables begin with nothing: returns that, and how many captures there are."""
    changes = MORE * [f"UPDATE {NAMES[0]} SET v = v + 1", "COMMIT WITH SNAPSHOT"]
    run(program, "run", "store", lines=[f"SESSION {NAMES[0]}", *changes])
    asked = [f"SELECT AS OF {n} COUNT(*), SUM(v) FROM {NAMES[0]}" for n in (1, LOOKED_AT[-1] + MORE)]
    past = run(program, "run", "store", lines=["SESSION r", *asked])
    shown = dict(line.split(" ") for line in run(program, "show", "store"))
    return [line for line in past if "," in line], int(shown["captures"])


def main():
    program, began = os.path.abspath(sys.argv[1]), time.monotonic()
    sums = ["PHASE", "SESSION r", *(f"SELECT COUNT(*), SUM(v) FROM {name}" for name in NAMES), "COMMIT"]
    with tempfile.TemporaryDirectory(prefix="full-", dir=".") as room:
        os.chdir(room)
        run(program, "format", "store", "8192", "262144")
        for name in NAMES:
            run(program, "run", "store", lines=["PHASE", *making(name)])
        told = run(program, "run", "store", lines=["PHASE", *(line for name in NAMES for line in changing(name)), *sums])
        again = run(program, "run", "store", lines=sums)
        asked = ["SESSION r", *(line for snapshot in LOOKED_AT for line in asking(snapshot))]
        past = run(program, "run", "store", lines=asked)
        more, captures = changed_more(program)
        os.chdir("..")
    text, journal = told[: told.index("journal")], told[told.index("journal") + 1 :]
    refused = [line for line in text if line.startswith("refused")]
    assert not refused, refused
    assert text.count(f"ok {PAGES}") == len(NAMES) * CHANGES, text[-50:]
    for name in NAMES:
        said = [line.split(" ", 3)[2:] for line in journal if line.startswith(f"1 {name} ")]
        assert [item for item, _ in said] == [str(k + 1) for k in range(CHANGES)], (name, said)
    snapshots = [int(line.split(" ")[-1]) for line in journal if " done as " in line]
    assert snapshots == list(range(1, len(NAMES) * CHANGES // 2 + 1)), snapshots
    for lines in (text, again):
        assert [line for line in lines if "," in line] == [sum_line(name, CHANGES) for name in NAMES], lines[-20:]
    there = [line for snapshot in LOOKED_AT for line in sums_at(snapshot, journal)]
    assert [line for line in past if "," in line] == there, (past, there)
    assert more == [sums_at(1, journal)[0], sum_line(NAMES[0], CHANGES + MORE)], more
    assert captures > 100_000, captures
    print(f"{len(NAMES)} sessions made {len(NAMES) * CHANGES} commits of {PAGES} pages in {time.monotonic() - began:.1f} seconds")


main()
