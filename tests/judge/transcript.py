"""Runs a script's sessions one after the other, and prints what `retro run` must write."""

import meaning
import naming
import rql
import tree
from grammar import parse
from refusals import BadScript, Refused, unknown_name
from script import read

ROOM_OF_THE_JOURNAL = 65534
SNAP_COLUMNS = (("snap_id", naming.INT), ("label", naming.TEXT))


class Cut(Exception):
    """The journal is full: the item lacks its line, and its session stops."""


class Run:
    """The tables now, the declared ones, and the journal's visible lines."""

    def __init__(self):
        self.now = meaning.Tables()
        self.marks = {}
        self.oldest, self.newest = 1, 0
        self.lines = 0
        self.visible = []
        self.who = ""
        self.results = {}

    def need_lines(self, count):
        if self.lines + count > ROOM_OF_THE_JOURNAL:
            raise Cut()

    def note(self, what):
        self.lines += 1
        self.visible.append(self.who + " " + what)

    # Transactions

    def transaction(self, item):
        self.need_lines(2)
        self.lines += 1
        tables, replies = self.now, []
        for line in item.lines[:-1]:
            try:
                tables, reply = meaning.does(parse(line), tables)
                replies += reply
            except Refused as refusal:
                replies.append(refusal.text())
        return replies + self.ending(parse(item.lines[-1]), tables)

    def ending(self, said, tables):
        if isinstance(said, tree.Rollback):
            self.note("rolled back")
            return ["rolled back"]
        self.now = tables
        if said.label is None:
            self.note("done")
            return ["committed"]
        self.newest += 1
        self.marks[self.newest] = (said.label, tables)
        self.note("done as %d" % self.newest)
        return ["committed as %d" % self.newest]

    # Single items

    def look(self, opening, query):
        """Runs a query between its two lines."""
        self.note(opening)
        try:
            reply = query()
        except Refused as refusal:
            self.note("refused %d" % refusal.number)
            raise
        self.note("unlooked")
        return reply

    def lone(self, number, *values):
        self.note("refused %d" % number)
        raise Refused(number, *values)

    def as_of(self, said):
        self.need_lines(2)
        number = said.snapshot
        if number == 0 or number > self.newest:
            self.lone(9, number, self.newest)
        if number < self.oldest:
            self.lone(10, number, self.oldest)
        tables = self.marks[number][1]
        return self.look(
            "looked %d" % number,
            lambda: meaning.printed(meaning.answer(said.select, tables.source, number)),
        )

    def drop(self, said):
        self.need_lines(1)
        if said.bound == 0 or said.bound > self.newest:
            self.lone(9, said.bound, self.newest)
        for number in range(self.oldest, said.bound):
            del self.marks[number]
        self.oldest = max(self.oldest, said.bound)
        self.note("dropped below %d" % said.bound)
        return ["dropped below %d" % said.bound]

    def snap_ids(self, select):
        """The answer of a select over the table of the retained snapshots."""
        if set(select.tables) != {naming.SNAP_IDS}:
            raise unknown_name()
        rows = [(number, label) for number, (label, _) in sorted(self.marks.items())]
        return meaning.answer(select, lambda name: (SNAP_COLUMNS, rows), None)

    def of_result(self, select):
        if len(set(select.tables)) > 1 or select.tables[0] not in self.results:
            raise unknown_name()
        made = self.results[select.tables[0]]
        return meaning.answer(select, lambda name: (made.columns, made.rows), None)

    def called(self, call):
        snapshots = [row[0] for row in self.snap_ids(call.snapshots).rows]

        def answered(number):
            return meaning.answer(call.query, self.marks[number][1].source, number)

        made = rql.run(call, snapshots, answered)
        self.results[call.result] = made
        return ["ok %d" % len(made.rows)]

    def single(self, item):
        said = parse(item.lines[0])
        if isinstance(said, tree.AsOf):
            return self.as_of(said)
        if isinstance(said, tree.DropBelow):
            return self.drop(said)
        if isinstance(said, tree.Call):
            call = rql.spoken(said)
            self.need_lines(2)
            return self.look("looked all", lambda: self.called(call))
        if said.tables[0] != naming.SNAP_IDS:
            return meaning.printed(self.of_result(said))
        self.need_lines(2)
        return self.look("looked all", lambda: meaning.printed(self.snap_ids(said)))

    # Sessions

    def item(self, item):
        try:
            return self.single(item) if item.is_single else self.transaction(item)
        except Refused as refusal:
            return [refusal.text()]

    def session(self, phase, session):
        out = ["session " + session.name]
        self.results = {}
        stopped = False
        for place, item in enumerate(session.items, 1):
            self.who = "%d %s %d" % (phase, session.name, place)
            out.append("item %d" % place)
            try:
                out += ["not run"] if stopped else self.item(item)
            except Cut:
                out.append("refused 13 JournalFull")
                stopped = True
        return out


def transcript(data):
    """The bytes that a run of this script writes, and its exit status."""
    try:
        phases = read(data)
    except BadScript as bad:
        return b"retro: bad script at line %d\n" % bad.line, 3
    run, out = Run(), []
    for number, sessions in enumerate(phases, 1):
        out.append("phase %d" % number)
        for session in sessions:
            out += run.session(number, session)
    out += ["journal"] + run.visible
    return "".join(line + "\n" for line in out).encode("ascii"), 0
