"""Compares a program's transcripts with the model's, over random scripts and scripts at the limits.

python3 tests/judge/run.py --program PATH --seeds A B     runs PATH on the scripts of the seeds A to B
python3 tests/judge/run.py --program PATH --files F..     runs it on these scripts
python3 tests/judge/run.py --write FOLDER --seeds A B     writes the scripts as cases for `rt try --cases`
With --edges the scripts at the limits are compared, or written, too; with --edits all lines that are one token
away from a list of sentences.
"""

import argparse
import os
import re
import subprocess
import sys
from collections import Counter

sys.dont_write_bytecode = True
sys.setrecursionlimit(100000)

from edges import edges
from edits import scripts_of_edits
from generate import scripts
from transcript import transcript

SECONDS = 600
REFUSED = re.compile(rb"^refused (\d+) ", re.MULTILINE)


def arguments():
    reader = argparse.ArgumentParser(description=__doc__, formatter_class=argparse.RawDescriptionHelpFormatter)
    reader.add_argument("--program")
    reader.add_argument("--write")
    reader.add_argument("--seeds", nargs=2, type=int, metavar=("A", "B"))
    reader.add_argument("--edges", action="store_true")
    reader.add_argument("--edits", action="store_true")
    reader.add_argument("--files", nargs="*", default=[])
    return reader.parse_args()


def wanted(said):
    """The scripts that were asked for, each with its name."""
    if said.seeds:
        for seed in range(said.seeds[0], said.seeds[1] + 1):
            yield from scripts(seed)
    if said.edges:
        yield from edges()
    if said.edits:
        yield from scripts_of_edits()
    for path in said.files:
        with open(path, "rb") as held:
            yield os.path.basename(path), held.read()


class Counts:
    def __init__(self):
        self.scripts = 0
        self.lines = 0
        self.bad = 0
        self.refusals = Counter()

    def add(self, script, text, status):
        self.scripts += 1
        self.lines += script.count(b"\n") + (not script.endswith(b"\n") and script != b"")
        self.bad += status == 3
        self.refusals.update(int(number) for number in REFUSED.findall(text + b" "))

    def tell(self):
        print("scripts %d, lines %d, bad scripts %d" % (self.scripts, self.lines, self.bad))
        parts = ["%d: %d" % pair for pair in sorted(self.refusals.items())]
        print("refusals compared, by number: " + ", ".join(parts))


def told(text):
    """A transcript up to the order of its journal's lines, which sessions of one phase may write in any."""
    replies, found, journal = text.partition(b"\njournal\n")
    return replies + found + b"\n".join(sorted(journal.split(b"\n")))


def runs(program, script):
    done = subprocess.run([program, "run"], input=script, capture_output=True, timeout=SECONDS, check=False)
    return done.stdout, done.returncode


def are_same(one, other, script):
    if one == other:
        return True
    has_many = re.search(rb"(?im)^session\b(?:(?!^phase\b)[\s\S])*^session\b", script)
    return bool(has_many) and one[1] == other[1] and told(one[0]) == told(other[0])


def difference(program, script):
    """The two exit statuses where the transcripts differ, else None."""
    text, status = transcript(script)
    given, ended = runs(program, script)
    return None if are_same((text, status), (given, ended), script) else (status, ended)


def shrunk(program, script):
    """A script that still differs with the same statuses, with no line that can be left out."""
    lines = script.split(b"\n")
    wanted_difference = difference(program, script)
    size = max(1, len(lines) // 2)
    while size:
        at = 0
        while at < len(lines):
            fewer = lines[:at] + lines[at + size :]
            if difference(program, b"\n".join(fewer)) == wanted_difference:
                lines = fewer
            else:
                at += size
        size //= 2
    return b"\n".join(lines)


def show(script, program):
    """Prints a script, and the first line in which the two transcripts differ."""
    print("the script:")
    print(script.decode("latin-1"))
    text, status = transcript(script)
    given, ended = runs(program, script)
    ours, theirs = text.split(b"\n"), given.split(b"\n")
    at = 0
    while at < min(len(ours), len(theirs)) and ours[at] == theirs[at]:
        at += 1
    print("statuses: model %d, program %d" % (status, ended))
    print("first different line, %d:" % (at + 1))
    print("  model   " + b"".join(ours[at : at + 1]).decode("latin-1"))
    print("  program " + b"".join(theirs[at : at + 1]).decode("latin-1"))


def compare(said):
    counts = Counts()
    for name, script in wanted(said):
        text, status = transcript(script)
        counts.add(script, text, status)
        if not are_same((text, status), runs(said.program, script), script):
            print("different: " + name)
            show(shrunk(said.program, script), said.program)
            counts.tell()
            return 1
    counts.tell()
    return 0


def write(said):
    counts = Counts()
    os.makedirs(said.write, exist_ok=True)
    for name, script in wanted(said):
        text, status = transcript(script)
        counts.add(script, text, status)
        for end, held in (("", script), (".args", b"run\n"), (".stdout", text)):
            with open(os.path.join(said.write, name + end), "wb") as out:
                out.write(held)
    counts.tell()
    return 0


def main():
    said = arguments()
    if said.program:
        said.program = os.path.abspath(said.program)
        return compare(said)
    return write(said) if said.write else 2


if __name__ == "__main__":
    sys.exit(main())
