#!/usr/bin/env python3
"""refused_memory.py PROGRAM [--each]: want of memory at every place of a run, outside the gate.

It runs one script under each limit of memory, 64 KiB apart (or STEP bytes, from the environment), from where the program
is not begun up to where it ends as with no limit, in memory and over a store: some minutes. With --each it has the first
allocation refused, then the second, and so on until none is left, by a library that cc makes of the lines below and that
the loader puts before the C library's. Each run has to end by itself: with status 8 and a front of the line that tells
it, with 0 or 8 and a transcript that is the good one or tells OutOfMemory, or with 6 where the cabinet had no memory for
a path; a store has to open again, to a beginning of the commits.

    python3 tests/refused_memory.py crates/retro/out/retro
    python3 tests/refused_memory.py crates/retro/out/retro --each
"""
import os
import re
import resource
import subprocess
import sys
import tempfile

STEP = int(os.environ.get("STEP", "65536"))
LINE = b"retro: out of memory\n"
# A cabinet that has no memory for a path has a call that failed.
FAULT = b"retro: disk fault on cabinet 1\n"
# Refuses the allocation of that number, and tells on standard error that it came.
ALLOCATOR = """
#include <stdlib.h>
#include <unistd.h>
void *__libc_malloc(size_t), *__libc_realloc(void *, size_t);
static long number, count;
__attribute__((constructor)) static void begin(void) { number = atol(getenv("REFUSED")); }
static int is_refused(void) {
    return number && __atomic_add_fetch(&count, 1, __ATOMIC_RELAXED) == number && write(2, "refused\\n", 8) == 8;
}
void *malloc(size_t bytes) { return is_refused() ? 0 : __libc_malloc(bytes); }
void *realloc(void *old, size_t bytes) { return is_refused() ? 0 : __libc_realloc(old, bytes); }
"""

# Snapshot n has the values 1 to n, so their sum is n * (n + 1) / 2.
COMMITS = 6
SCRIPT = "SESSION a\nCREATE TABLE t(v INT)\n" + "".join(
    f"INSERT INTO t VALUES ({n})\nCOMMIT WITH SNAPSHOT\n" for n in range(1, COMMITS + 1)
)
SCRIPT += "SELECT AS OF 2 * FROM t\nCollateData('SELECT snap_id FROM SnapIds','SELECT v FROM t','rql_c')\n"
SCRIPT += "SELECT COUNT(*), SUM(v) FROM rql_c\nPHASE\nSESSION b\nSELECT SUM(v) FROM t\nCOMMIT\n"
SCRIPT += "SESSION c\nSELECT AS OF 1 * FROM t\n"


def good():
    sums = [n * (n + 1) // 2 for n in range(COMMITS + 1)]
    text = "phase 1\nsession a\n"
    for n in range(1, COMMITS + 1):
        text += f"item {n}\n" + ("ok\n" if n == 1 else "") + f"ok 1\ncommitted as {n}\n"
    text += f"item {COMMITS + 1}\nrows 2\n1\n2\nitem {COMMITS + 2}\nok {sums[COMMITS]}\nitem {COMMITS + 3}\n"
    text += f"rows 1\n{sums[COMMITS]},{sum(sums)}\n"
    text += f"phase 2\nsession b\nitem 1\nrows 1\n{sums[COMMITS]}\ncommitted\nsession c\nitem 1\nrows 1\n1\njournal\n"
    return text.encode()


def judge(what, status, text):
    """Whether the run was the good one; ends where it ended in no allowed way. The journal's lines have no one order."""
    is_good = status == 0 and text.startswith(good()) and b"OutOfMemory" not in text
    is_cut = status == 8 and LINE.startswith(text)
    is_told = status in (0, 8) and text.startswith(b"phase 1\n") and b"refused 1 OutOfMemory\n" in text
    is_uncopied = status == 8 and text.startswith(good())
    is_fault = status == 6 and text == FAULT
    if not (is_good or is_cut or is_told or is_uncopied or is_fault):
        sys.exit(f"{what}: status {status}, and it said {text[-400:]!r}")
    return is_good


def run(program, words, limit=None, script=SCRIPT, environment=None):
    def bound():
        if limit is not None:
            resource.setrlimit(resource.RLIMIT_AS, (limit, limit))

    given = script.encode()
    how = {"capture_output": True, "timeout": 110, "preexec_fn": bound, "env": environment}
    return subprocess.run([program, *words], input=given, **how)


def told_sums(text):
    """The sum at each snapshot that a transcript tells: an item that was refused has added nothing."""
    sums, total = {}, 0
    for number, value in re.findall(rb"ok 1\ncommitted as (\d+)\n(?=item (\d+)\n)", text):
        total += int(value) - 1
        sums[int(number)] = total
    return sums


def holds_commits(program, text):
    """The store of a run opens again, and has as of each snapshot what the run told."""
    asked = "CollateData('SELECT snap_id FROM SnapIds','SELECT current_snapshot() AS n, SUM(v) AS s FROM t','rql_c')"
    done = run(program, ["run", "store"], None, f"SESSION b\n{asked}\nSELECT * FROM rql_c\n")
    lines, sums = done.stdout.decode().splitlines(), told_sums(text)
    if done.returncode != 0 or not {f"{n},{s}" for n, s in sums.items()} <= set(lines):
        sys.exit(f"{sums} were told, and then status {done.returncode} and {lines}")


def ended(program, words, what, **how):
    """A run from a new store: whether it was the good one, whether a transcript told the want, and what else it said."""
    if words[1:]:
        run(program, ["format", words[1], "16", "64"])
    done = run(program, words, **how)
    is_good = judge(what, done.returncode, done.stdout)
    if words[1:]:
        holds_commits(program, done.stdout)
    return is_good, done.stdout.startswith(b"phase 1\n"), done.stderr


def starts(program, limit):
    try:
        return run(program, ["run"], limit).returncode not in (127, -9, -11)
    except (OSError, subprocess.SubprocessError):
        return False


def limited(program, words):
    runs = told = 0
    limit = STEP
    # The system's loader finds no memory for the program itself.
    while not starts(program, limit):
        limit += STEP
    is_good = False
    while not is_good:
        is_good, tells, _ = ended(program, words, f"{words} in {limit} bytes", limit=limit)
        runs, told, limit = runs + 1, told + (tells and not is_good), limit + STEP
    return f"{runs} limits, {told} of them told in a transcript, until the run was whole"


def each(program, words, library):
    number = told = good = 0
    came = b"refused"
    while came:
        number += 1
        environment = {"LD_PRELOAD": library, "REFUSED": str(number)}
        is_good, tells, came = ended(program, words, f"{words}, allocation {number}", environment=environment)
        told, good = told + (tells and not is_good), good + is_good
    return f"{number - 1} allocations, {told} told in a transcript, {good - 1} done without"


def main():
    program = os.path.abspath(sys.argv[1])
    with tempfile.TemporaryDirectory() as room:
        os.chdir(room)
        library = f"{room}/allocator.so"
        if sys.argv[2:] == ["--each"]:
            cc = ["cc", "-shared", "-fPIC", "-O1", "-x", "c", "-", "-o", library]
            subprocess.run(cc, input=ALLOCATOR.encode(), check=True)
        for words in (["run"], ["run", "store"]):
            told = each(program, words, library) if sys.argv[2:] else limited(program, words)
            print(f"{' '.join(words)}: {told}", flush=True)
        os.chdir("/")


main()
