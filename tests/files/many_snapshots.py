#!/usr/bin/env python3
"""many_snapshots.py PROGRAM: as many snapshots as a store retains, and one more, in a folder under that one, or under the
system's folder in memory, where there is one. It takes several runs, since a journal ends before. The last snapshots are
read, then all but the newest are dropped, and numbers go on behind them. It ends with status 1 at the first difference."""
import os
import subprocess
import sys
import tempfile

RETAINED = 65_536
# Commits that a run makes: a journal has 65,536 lines, two for each.
IN_A_RUN = 32_000
MEMORY = "/dev/shm"


def ends(program, words, script, text):
    ran = subprocess.run([program, *words], input=script.encode(), stdout=subprocess.PIPE, timeout=300)
    if (ran.returncode, ran.stdout.decode()) != (0, text):
        sys.exit(f"{words}: status {ran.returncode}, and it said {ran.stdout.decode()[-300:]!r}, not {text[-300:]!r}")


def run(program, items):
    """One session runs these items, each a statement, its reply, and how its lines of the journal end."""
    script = "SESSION a\n" + "".join(f"{statement}\n" for statement, _, _ in items)
    text = "phase 1\nsession a\n" + "".join(f"item {n}\n{reply}\n" for n, (_, reply, _) in enumerate(items, 1))
    text += "journal\n" + "".join(f"1 a {n} {line}\n" for n, (_, _, lines) in enumerate(items, 1) for line in lines)
    ends(program, ["run", "store"], script, text)


def declared(number):
    return "COMMIT WITH SNAPSHOT", f"committed as {number}", [f"done as {number}"]


def read(number, rows):
    return f"SELECT AS OF {number} a FROM t", f"rows {len(rows)}" + "".join(f"\n{row}" for row in rows), [
        f"looked {number}", "unlooked"]


def shown(program, oldest, newest, captures):
    sizes = "version 1\npages 16\ncapacity 64\n"
    ends(program, ["show", "store"], "", f"{sizes}oldest {oldest}\nnewest {newest}\ncaptures {captures}\n")


def look(program):
    ends(program, ["format", "store", "16", "64"], "", "formatted 16 64\n")
    made = "SESSION a\nCREATE TABLE t(a INT)\nINSERT INTO t VALUES (1)\nCOMMIT WITH SNAPSHOT\n"
    ends(program, ["run", "store"], made,
         "phase 1\nsession a\nitem 1\nok\nok 1\ncommitted as 1\njournal\n1 a 1 done as 1\n")
    number = 1
    while number < RETAINED:
        last = min(number + IN_A_RUN, RETAINED)
        run(program, [declared(n) for n in range(number + 1, last + 1)])
        number = last
    shown(program, 1, RETAINED, 0)
    changed = "SESSION a\nINSERT INTO t VALUES (2)\nCOMMIT\n"
    ends(program, ["run", "store"], changed,
         "phase 1\nsession a\nitem 1\nok 1\ncommitted\njournal\n1 a 1 done\n")
    full = f"refused 18 SnapshotsFull {RETAINED}"
    run(program, [
        read(1, [1]), read(RETAINED, [1]),
        ("COMMIT WITH SNAPSHOT", full, ["refused 18"]),
        (f"DROP SNAPSHOTS BELOW {RETAINED}", f"dropped below {RETAINED}", [f"dropped below {RETAINED}"]),
        declared(RETAINED + 1), declared(RETAINED + 2),
        read(RETAINED, [1]), read(RETAINED + 1, [1, 2]), read(RETAINED + 2, [1, 2]),
    ])
    shown(program, RETAINED, RETAINED + 2, 1)


def main():
    program = os.path.abspath(sys.argv[1])
    with tempfile.TemporaryDirectory(prefix="snapshots-", dir=MEMORY if os.path.isdir(MEMORY) else os.getcwd()) as room:
        os.chdir(room)
        look(program)
    print(f"{RETAINED:,} snapshots of a store, one more refused, and the numbers behind them")


main()
