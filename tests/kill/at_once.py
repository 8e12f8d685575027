#!/usr/bin/env python3
"""at_once.py PROGRAM [CYCLES [SEED]]: kills the program while eight sessions commit at once, and opens the store again
each time.

Every transaction moves a number from one row to another and declares a snapshot, whose label names the session and the
move. So whatever was committed when a run ended, the labels say what the table holds, now and as of each snapshot: the
moves in their order, worked out here. No snapshot that was seen, or told as committed by a run that was not killed, is
lost. The labels stand in the order of the commits: each session's moves in theirs, and of a run that was not killed
those that its journal tells, in its order. They show what a kill came upon: there are more runs, up to twenty, until
half of them were killed, and one while two sessions at least had made some of their moves and not their last. The first
run, which tells how long one takes, and the last, which is short, have all the time that they need. It works in a
folder of its own under the current one, prints its seed first, and ends with status 1 at the first difference.
"""
import os
import random
import re
import signal
import subprocess
import sys
import tempfile
import time

ROWS, FIRST, SESSIONS, MOVES, FEW = 64, 1000, "abcdefgh", 40, 6

# The longest that a run may take, in seconds, which is not killed.
LONGEST = 110

# So many runs more than asked for, where too few were killed, or no kill came upon two sessions.
MORE = 20


def moving(moves):
    """A script of so many moves of each session, and each of them by its label: from where, to where, and how much."""
    lines, made = ["PHASE"], {}
    for session in SESSIONS:
        lines.append(f"SESSION {session}")
        for move in range(1, moves + 1):
            giver, taker = random.sample(range(ROWS), 2)
            much, label = random.randrange(1, 50), f"{session} {move}"
            lines.append(f"UPDATE t SET v = v - {much} WHERE k = {giver}")
            lines.append(f"UPDATE t SET v = v + {much} WHERE k = {taker}")
            lines.append(f"COMMIT WITH SNAPSHOT '{label}'")
            made[label] = giver, taker, much
    return lines, made


def run(program, lines, seconds):
    """What the program wrote, which ended well, or None where it was killed after so long."""
    with tempfile.TemporaryFile() as given:
        given.write(("\n".join(lines) + "\n").encode())
        given.seek(0)
        began = subprocess.Popen([program, "run", "books"], stdin=given, stdout=subprocess.PIPE)
        try:
            text = began.communicate(timeout=seconds)[0].decode()
            assert began.returncode == 0, (began.returncode, text[-300:])
            return text
        except subprocess.TimeoutExpired:
            began.send_signal(signal.SIGKILL)
            began.communicate()
            return None


def told_in(text):
    """The snapshots that a run which was not killed tells as committed, by the order of its journal, and who made each."""
    lines = (line.split() for line in text.split("journal\n")[1].splitlines())
    told = [(int(line[5]), f"{line[1]} {line[2]}") for line in lines if line[3:5] == ["done", "as"]]
    replied = sorted(int(line.split()[2]) for line in text.splitlines() if line.startswith("committed as "))
    assert replied == sorted(number for number, _ in told), "replies and journal"
    return told


def behind(rows, move):
    """The rows behind a move."""
    giver, taker, much = move
    return [v - much * (k == giver) + much * (k == taker) for k, v in enumerate(rows)]


def check(program, made, tables):
    """Finds the snapshots above those in `tables`, with their labels, and adds what each holds; the table has to be that,
    now and as of some."""
    seen = len(tables)
    shown = subprocess.run([program, "show", "books"], capture_output=True, text=True, check=True, timeout=LONGEST).stdout
    newest = next(int(line.split()[1]) for line in shown.splitlines() if line.startswith("newest"))
    assert newest >= seen, (newest, seen)
    some = sorted({1, newest, *random.sample(range(1, newest + 1), min(6, newest))})
    asked = [f"SELECT AS OF {n} * FROM t" for n in some]
    listed = f"SELECT * FROM SnapIds WHERE snap_id > {seen}"
    text = run(program, ["PHASE", "SESSION a", listed, "SELECT * FROM t", "COMMIT", *asked], LONGEST)
    assert text is not None, "a look did not end"
    looked = text.split("journal\n")[0]
    lists, now, *past = [part.splitlines() for part in re.split(r"^item \d+\n", looked, flags=re.M)[1:]]
    found = [(int(number), label) for number, label in (line.split(",") for line in lists[1:])]
    assert [number for number, _ in found] == list(range(seen + 1, newest + 1)), (seen, newest, found)
    for _, label in found:
        tables.append(behind(tables[-1], made[label]))
    assert now == [*told_rows(tables[-1]), "committed"], ("now", now)
    for number, rows in zip(some, past, strict=True):
        assert rows == told_rows(tables[number - 1]), (number, rows)
    return found


def told_rows(rows):
    return [f"rows {ROWS}", *(f"{k},{v}" for k, v in enumerate(rows))]


def orders(found):
    """The moves of each session, of which each was made behind those before it."""
    moves = {session: [int(label.split()[1]) for _, label in found if label[0] == session] for session in SESSIONS}
    assert all(those == sorted(set(those)) for those in moves.values()), moves
    return moves


def most_inside(found):
    """How many sessions at most had made a move and not yet their last of those found."""
    made = [label[0] for _, label in found]
    spans = [(made.index(session), len(made) - 1 - made[::-1].index(session)) for session in set(made)]
    return max((sum(first <= at < last for first, last in spans) for at in range(len(made))), default=0)


def make(program):
    subprocess.run([program, "format", "books", "256", "65536"], check=True, capture_output=True)
    made = ",".join(f"({k},{FIRST})" for k in range(ROWS))
    lines = ["PHASE", "SESSION a", "CREATE TABLE t(k INT, v INT)", f"INSERT INTO t VALUES {made}", "COMMIT WITH SNAPSHOT"]
    assert run(program, lines, LONGEST) is not None, "the table was not made"


def main():
    program, cycles = os.path.abspath(sys.argv[1]), int(sys.argv[2]) if len(sys.argv) > 2 else 30
    seed = int(sys.argv[3]) if len(sys.argv) > 3 else random.randrange(1 << 32)
    random.seed(seed)
    print(f"seed {seed}", flush=True)
    runs, killed, upon, inside, tables = 0, 0, 0, 0, [ROWS * [FIRST]]
    with tempfile.TemporaryDirectory(dir=".") as folder:
        os.chdir(folder)
        make(program)
        span, is_last = LONGEST, False
        while not is_last:
            is_last = runs >= cycles - 1 and (upon > 0 and 2 * killed > runs or runs >= cycles + MORE)
            # The first run tells how long one takes.
            seconds = LONGEST if runs == 0 or is_last else min(LONGEST, random.uniform(0.05, 0.9) * span)
            began = time.monotonic()
            lines, made = moving(FEW if is_last else MOVES)
            text = run(program, lines, seconds)
            took = time.monotonic() - began
            found = check(program, made, tables)
            moves = orders(found)
            if text is None:
                killed += 1
                came = sum(0 < len(those) and those[-1] < MOVES for those in moves.values()) > 1
                upon, inside = upon + came, max(inside, most_inside(found))
                # A machine that is busier than it was takes longer.
                span *= 1 if came else 1.5
            else:
                assert found == told_in(text), (found, told_in(text))
                # A machine that is less busy than it was takes less.
                span = min(span, took)
            assert text is not None or not is_last, f"the last run did not end within {LONGEST} seconds"
            runs += 1
        os.chdir("..")
    assert upon > 0 and inside > 1 and 2 * killed >= runs, (runs, killed, upon, inside)
    print(
        f"{runs} runs of eight sessions, {killed} of them killed before their end, {upon} of these while two or more had "
        f"made some of their moves, with {inside} at most inside one another; {len(tables)} snapshots, each that was asked "
        "as worked out"
    )


main()
