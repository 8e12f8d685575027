#!/usr/bin/env python3
"""at_once.py PROGRAM [RUNS]: runs one script of eight sessions at once, many times, and judges each transcript: every
fifth run is over a new store, in a folder of its own under the current one, the others in memory.

The sessions of the second phase change the rows of one table and look at it, some with a snapshot at their commit and
one as of the first snapshot. The judge takes the visible lines of the journal in their order and does what each item
that they tell as done does to four numbers: what the item saw, what each snapshot holds, and what the table holds at
the end have to be those numbers. It is tried first on transcripts that no run may give, each of which it has to refuse.
It ends with status 1 at the first difference, where all runs had one order, and where in no run three sessions had begun
and not ended at once; until one has, the script is run up to ten times as often.
"""
import os
import re
import shutil
import subprocess
import sys
import tempfile

ROWS, SESSIONS, ITEMS = 4, "abcdefgh", 8

# Of so many runs one is over a store.
KEPT = 5

# Of the maker, and of three items of each session.
SNAPSHOTS = 1 + 3 * len(SESSIONS)


def change(session, item):
    return (SESSIONS.index(session) + item) % ROWS, 10 * SESSIONS.index(session) + item


def item_of(session, item):
    if item == 5:
        return ["SELECT AS OF 1 SUM(v) FROM t"]
    row, value = change(session, item)
    end = "COMMIT WITH SNAPSHOT" if item % 2 else "COMMIT"
    return [f"UPDATE t SET v = v + {value} WHERE k = {row}", "SELECT SUM(v) FROM t", end]


def script():
    made = ",".join(f"({k},0)" for k in range(ROWS))
    lines = ["PHASE", "SESSION maker", "CREATE TABLE t(k INT, v INT)", f"INSERT INTO t VALUES {made}", "COMMIT WITH SNAPSHOT"]
    lines.append("PHASE")
    for session in SESSIONS:
        lines.append(f"SESSION {session}")
        for item in range(1, ITEMS + 1):
            lines += item_of(session, item)
    lines += ["PHASE", "SESSION reader", "SELECT * FROM t", "COMMIT"]
    lines += [f"SELECT AS OF {n} * FROM t" for n in range(1, SNAPSHOTS + 1)]
    return "\n".join(lines) + "\n"


def run(program, words):
    done = subprocess.run([program, *words], input=script(), text=True, capture_output=True, timeout=110)
    assert done.returncode == 0, done.stdout[-300:]
    text, journal = done.stdout.split("journal\n")
    return text.splitlines(), journal.splitlines()


def rows_of(state):
    return [f"rows {ROWS}", *(f"{k},{v}" for k, v in enumerate(state))]


def text_of(replies, snapshots, numbers):
    """The text, of the replies to each session's items, what each snapshot holds, and what the table holds at the end."""
    text = ["phase 1", "session maker", "item 1", "ok", f"ok {ROWS}", "committed as 1", "phase 2"]
    for session in SESSIONS:
        text += [f"session {session}", *(line for k in range(1, ITEMS + 1) for line in (f"item {k}", *replies[session, k]))]
    text += ["phase 3", "session reader", "item 1", *rows_of(numbers), "committed"]
    for n in range(1, SNAPSHOTS + 1):
        none = [f"refused 9 NoSuchSnapshot {n} {max(snapshots)}"]
        text += [f"item {n + 1}", *(rows_of(snapshots[n]) if n in snapshots else none)]
    return text


def read(snapshots):
    """The lines of the reader, whose items look at each snapshot that there may be."""
    lines = ["3 reader 1 done"]
    for n in range(1, SNAPSHOTS + 1):
        lines += [f"3 reader {n + 1} {said}" for said in ([f"looked {n}", "unlooked"] if n in snapshots else ["refused 9"])]
    return lines


def replied(text, session, item):
    """The lines behind an item of the second phase."""
    at = text.index(f"item {item}", text.index(f"session {session}", text.index("phase 2"))) + 1
    return text[at:next(end for end in range(at, len(text)) if text[end].split(" ")[0] in ("item", "session", "phase"))]


def room_of(lines, session, item):
    """Between which lines the attempts of an item lie: that of the item before, and its own or that of an item behind."""
    own = [(at, int(number)) for at, (name, number, _) in enumerate(lines) if name == session]
    before, behind = [at for at, number in own if number < item], [at for at, number in own if number >= item]
    return max(before, default=-1), min(behind, default=len(lines))


def judge_refused(lines, session, item, got):
    """A refused item answers alone, and names an item of another session that changes rows and may have been open with it."""
    named = re.fullmatch(r"refused 8 Overlap ([a-h]) ([1-46-8])", got[0])
    assert len(got) == 1 and named and named[1] != session, ("who overlapped", session, got)
    (begun, ended), (opened, closed) = room_of(lines, session, item), room_of(lines, named[1], int(named[2]))
    assert begun < closed and opened < ended, ("it was not open then", session, item, got)


def judge_items(text, lines, replies):
    """Each session tells its items in their order: one line of each that was done, two of its look, and none of one that
    overlapped others, whose reply is taken over and whose count is answered."""
    refused = 0
    for session in SESSIONS:
        items = [int(item) for name, item, _ in lines if name == session]
        assert items == sorted(items), ("the items of a session go back", session, items)
        for item in range(1, ITEMS + 1):
            said = [said for name, number, said in lines if (name, int(number)) == (session, item)]
            if item == 5:
                assert said == ["looked 1", "unlooked"], ("a look", session, said)
                replies[session, item] = ["rows 1", "0"]
            elif not said:
                replies[session, item] = replied(text, session, item)
                judge_refused(lines, session, item, replies[session, item])
                refused += 1
            else:
                assert len(said) == 1, (session, item, said)
    return refused


def judge(text, journal):
    """Checks a transcript against its journal, and answers the order of the commits and the count of refused items."""
    lines = [line.split(" ", 3)[1:] for line in journal if line.startswith("2 ")]
    assert all(session in SESSIONS for session, _, _ in lines), "a line of nobody's item"
    replies, numbers, order, snapshots = {}, [0] * ROWS, [], {1: (0,) * ROWS}
    for session, item, said in lines:
        if item != "5":
            row, value = change(session, int(item))
            numbers[row] += value
            end = "committed"
            if int(item) % 2:
                snapshots[len(snapshots) + 1] = tuple(numbers)
                end = f"committed as {len(snapshots)}"
            assert said == end.replace("committed", "done"), (session, item, said, end)
            replies[session, int(item)] = ["ok 1", "rows 1", str(sum(numbers)), end]
            order.append((session, int(item)))
    refused = judge_items(text, lines, replies)
    assert journal == ["1 maker 1 done as 1", *(" ".join(["2", *line]) for line in lines), *read(snapshots)], "the journal"
    assert text == text_of(replies, snapshots, numbers), "the replies"
    return tuple(order), refused


def most_inside(journal):
    """How many sessions at most had their first line and not their last: more than a program of two threads has."""
    told = [line.split(" ")[1] for line in journal if line.startswith("2 ")]
    spans = [(told.index(s), len(told) - 1 - told[::-1].index(s)) for s in SESSIONS]
    return max(sum(first <= at < last for first, last in spans) for at in range(len(told)))


def made(items=range(1, ITEMS + 1), left_out=0, overlapped={}):
    """A transcript of sessions one after the other, each of which runs its items in this order; no snapshot has the
    number that is left out, and some items overlapped those that are named."""
    numbers, newest, states, replies, journal = [0] * ROWS, 1, {1: (0,) * ROWS}, {}, ["1 maker 1 done as 1"]
    for session, item in ((session, item) for session in SESSIONS for item in items):
        if item == 5:
            replies[session, item] = ["rows 1", "0"]
            journal += [f"2 {session} 5 looked 1", f"2 {session} 5 unlooked"]
        elif (session, item) in overlapped:
            replies[session, item] = [f"refused 8 Overlap {overlapped[session, item]}"]
        else:
            row, value = change(session, item)
            numbers[row] += value
            newest += item % 2 + (item % 2 and newest + 1 == left_out)
            states.update({newest: tuple(numbers)} if item % 2 else {})
            end = f" as {newest}" if item % 2 else ""
            replies[session, item] = ["ok 1", "rows 1", str(sum(numbers)), f"committed{end}"]
            journal.append(f"2 {session} {item} done{end}")
    return text_of(replies, states, numbers), journal + read(states)


def with_looks(transcript, reply, lines):
    """The transcript where each look has this reply and these lines."""
    text, journal = "\n".join(transcript[0]), "\n".join(transcript[1])
    text = text.replace("item 5\nrows 1\n0\nitem 6", "\n".join(["item 5", *reply, "item 6"]))
    journal = re.sub(r"(2 \w 5 )looked 1\n.*", lambda at: "\n".join(at[1] + line for line in lines), journal)
    return text.splitlines(), [line for line in journal.splitlines() if line]


def is_lawful(transcript):
    try:
        return bool(judge(*transcript))
    except AssertionError:
        return False


def judge_the_judge():
    """Made transcripts: the judge passes those that a run may give, and refuses each other."""
    looks = ["looked 1", "unlooked"]
    lawful = {"sessions in turn": made(), "an overlap": made(overlapped={("h", 1): "g 8", ("b", 1): "a 8"})}
    unlawful = {
        "a look of another value without a line": with_looks(made(), ["rows 1", "999"], []),
        "a look of another value": with_looks(made(), ["rows 1", "999"], looks),
        "a look without its lines": with_looks(made(), ["rows 1", "0"], []),
        "a look that stays open": with_looks(made(), ["rows 1", "0"], looks[:1]),
        "a look of another snapshot": with_looks(made(), ["rows 1", "0"], ["looked 2", "unlooked"]),
        "looks without memory": with_looks(made(), ["refused 1 OutOfMemory"], []),
        "the items of a session backwards": made(range(ITEMS, 0, -1)),
        "a number left out": made(left_out=7),
        **{f"an overlap with {name}": made(overlapped={("h", 1): name}) for name in ("h 2", "maker 1", "g 9", "g 5")},
        "an overlap with one that was over": made(overlapped={("c", 3): "b 8"}),
        "an overlap with one to come": made(overlapped={("b", 1): "h 8"}),
    }
    text, journal = made()
    refused = made(overlapped={("h", 1): "g 8"})
    at = refused[0].index("refused 8 Overlap g 8")
    third = journal.index("3 reader 1 done")
    unlawful |= {
        "a line twice": (text, journal[:2] + journal[1:]),
        "a commit without its line": (text, [line for line in journal if line != "2 h 8 done"]),
        "a refusal behind other replies": (refused[0][:at] + ["ok 1", "rows 1", "7"] + refused[0][at:], refused[1]),
        "no line of the maker": (text, journal[1:]),
        "no line of the reader's commit": (text, journal[:third] + journal[third + 1:]),
        "a line of the reader too early": (text, [*journal[:9], journal[third], *journal[9:third], *journal[third + 1:]]),
        "a fault of the copier": (text, journal[:third] + ["2 copier 0 fault maplog 1"] + journal[third:]),
        "another refusal of a look": ([line.replace("9 NoSuchSnapshot", "10 Dropped") for line in refused[0]], refused[1]),
        "sessions out of order": ([{"session a": "session b", "session b": "session a"}.get(line, line) for line in text], journal),
    }
    for judged, wanted in ((lawful, True), (unlawful, False)):
        wrong = [name for name, transcript in judged.items() if is_lawful(transcript) != wanted]
        assert not wrong, ("the judge is wrong at", wrong)
    assert most_inside(journal) == 1, "sessions in turn are not inside one another"


def main():
    program, runs = os.path.abspath(sys.argv[1]), int(sys.argv[2]) if len(sys.argv) > 2 else 100
    judge_the_judge()
    orders, made, refused, inside = set(), 0, 0, 0
    with tempfile.TemporaryDirectory(prefix="at-once-", dir=".") as room:
        store = os.path.join(room, "store")
        while made < runs or (inside == 0 and made < 10 * runs):
            stored = made % KEPT == 0
            if stored:
                subprocess.run([program, "format", store, "64", "4096"], check=True, stdout=subprocess.DEVNULL)
            text, journal = run(program, ["run", store] if stored else ["run"])
            shutil.rmtree(store, ignore_errors=True)
            order, count = judge(text, journal)
            orders.add(order)
            made += 1
            refused += count
            inside += most_inside(journal) > 2
    print(f"{made} runs, {len(orders)} orders, {inside} runs with three sessions inside at once; {refused} items overlapped 64 times")
    sys.exit(len(orders) < 2 or inside == 0)


main()
