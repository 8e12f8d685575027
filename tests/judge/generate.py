"""Scripts at random, by number: the same number gives the same script."""

import random

import meaning
import rql
from breaking import break_bytes, break_script, break_tokens
from grammar import parse
from refusals import BadScript, Refused
from script import Item, class_of, read, trimmed
from sentences import RESULT_NAMES, SNAP_SOURCE, Sentences, quoted, spaced
from transcript import Run

SESSION_NAMES = ("a", "b", "c", "s1", "0", "z" * 16)
LABELS = ("", "one", "two", "it's", "a,b", 'q"q', "x" * 64)
NOISE = (b"", b"# a remark", b"-- a remark", b"   ", b"\t", b";", b" ; ", b"--", b"#;")


def share_a_phase(lines):
    """Whether two sessions stand in one phase: then each order of them is lawful, and the model has but one."""
    try:
        return any(len(sessions) > 1 for sessions in read(b"\n".join(lines)))
    except BadScript:
        return False


class Maker:
    """Makes one script; it runs the model beside, so that it knows what there is to ask for."""

    def __init__(self, number):
        self.dice = random.Random(number)
        self.words = Sentences(self.dice, self.dice.choice((0.0, 0.003, 0.01, 0.03)))
        self.breaks = self.dice.choice((0.0, 0.02, 0.06, 0.2))
        self.run = Run()
        self.tables = self.run.now
        self.lines = []

    def odds(self, share):
        return self.dice.random() < share

    # Lines

    def recased(self, tokens):
        if not self.odds(0.1):
            return tokens
        return [word.lower() if word.isupper() and len(word) > 1 else word for word in tokens]

    def line_of(self, tokens, may_break=True):
        if may_break and self.odds(self.breaks):
            tokens = break_tokens(tokens, self.dice)
        line = spaced(self.recased(tokens), self.dice).encode("ascii")
        if may_break and self.odds(self.breaks / 2):
            line = break_bytes(line, self.dice)
        return line

    def put(self, line):
        """Adds a line with what may stand round it."""
        if self.odds(0.04):
            self.lines.append(self.dice.choice(NOISE))
        if self.odds(0.3):
            line += self.dice.choice((b";", b" ;", b"; ", b"  ;\t"))
        if self.odds(0.1):
            line = self.dice.choice((b" ", b"\t", b"  ")) + line + self.dice.choice((b"", b" ", b" \t"))
        self.lines.append(line)

    # Items

    def sources(self, tables):
        return [(name, list(table.columns)) for name, table in tables.tables.items()]

    def statement_line(self, tokens):
        line = self.line_of(tokens)
        if class_of(trimmed(line)) != "statement" or trimmed(line)[:1] in (b"", b"#"):
            line = self.line_of(tokens, False)
        return line

    def transaction(self, statements):
        """A transaction of these statements, each made when those before it have run."""
        self.tables = self.run.now
        lines = []
        for make in statements:
            line = self.statement_line(make())
            lines.append(trimmed(line))
            try:
                self.tables, _ = meaning.does(parse(trimmed(line)), self.tables)
            except Refused:
                pass
            self.put(line)
        end = self.line_of(self.ending(), False)
        self.put(end)
        self.run.item(Item(lines + [trimmed(end)], False))

    def ending(self):
        roll = self.dice.random()
        if roll < 0.12:
            return ["ROLLBACK"]
        if roll < 0.4:
            return ["COMMIT"]
        label = [quoted(self.dice.choice(LABELS))] if self.odds(0.6) else []
        return ["COMMIT", "WITH", "SNAPSHOT"] + label

    def opening(self):
        """The first transaction: tables with rows."""
        made = []
        for _ in range(self.dice.randint(1, 2)):
            made.append(lambda: self.words.create_table(self.tables.tables))
        for _ in range(self.dice.randint(2, 4)):
            made.append(lambda: self.words.insert(self.sources(self.tables) or [("t", [("a", "INT")])], 6))
        self.transaction(made)

    def statements(self):
        count = self.dice.randint(0, 4)
        self.transaction([lambda: self.words.statement(self.tables)] * count)

    def change(self):
        """A statement that changes a small table, so that rows go and come again."""
        sources = self.sources(self.tables)
        if not sources:
            return self.words.create_table({})
        way = self.dice.choice((self.words.insert, self.words.insert, self.words.update, self.words.delete))
        return way(sources)

    def history(self):
        """Several declarations with small changes between, and then calls over them."""
        for _ in range(self.dice.randint(3, 6)):
            self.transaction([self.change] * self.dice.randint(1, 2))
        for _ in range(self.dice.randint(2, 4)):
            self.call()

    def looks(self):
        """Several drops and looks, one behind the other."""
        for _ in range(self.dice.randint(4, 8)):
            self.dice.choice((self.drop, self.drop, self.as_of, self.snap_ids))()

    def single(self, tokens):
        line = self.line_of(tokens)
        if class_of(trimmed(line)) != "single":
            line = self.line_of(tokens, False)
        self.run.item(Item([trimmed(line)], True))
        self.put(line)

    def snapshot(self):
        """A number to ask for: mostly that of a retained snapshot."""
        if self.odds(0.05):
            return self.dice.choice((0, 1, self.run.newest + 1, 2**32, 2**63 - 1))
        if self.odds(0.2):
            return self.dice.randint(0, self.run.oldest)
        return self.dice.randint(min(self.run.oldest, self.run.newest), self.run.newest)

    def as_of(self):
        number = self.snapshot()
        mark = self.run.marks.get(number)
        sources = self.sources(mark[1] if mark else self.run.now)
        self.single(self.words.select(sources, ("AS", "OF", str(number)), True))

    def snap_ids(self):
        self.single(self.words.select([SNAP_SOURCE]))

    def of_result(self):
        known = [(name, list(made.columns)) for name, made in self.run.results.items()]
        if not known and self.odds(0.8):
            return self.call()
        if not known or self.odds(0.1):
            known = [(self.dice.choice(RESULT_NAMES), [("a", "INT")])]
        self.single(self.words.select([self.dice.choice(known)], shape="star" if self.odds(0.4) else None))

    def drop(self):
        self.single(["DROP", "SNAPSHOTS", "BELOW", str(self.snapshot())])

    # Calls

    def snapshots_query(self):
        scope = [SNAP_SOURCE]
        tokens = ["SELECT", "snap_id", "FROM", "SnapIds"]
        if self.odds(0.25):
            tokens = self.words.select(scope, shape="star")
            behind = tokens.index("FROM")
            tokens = ["SELECT", "snap_id"] + tokens[behind:]
        if self.odds(0.3) and "ORDER" not in tokens and "LIMIT" not in tokens:
            tokens += ["ORDER", "BY", self.dice.choice(("snap_id", "label"))]
            tokens += ["DESC"] if self.odds(0.8) else []
        return tokens

    def argument(self, tokens):
        if self.odds(self.breaks / 3):
            tokens = break_tokens(tokens, self.dice)
        text = spaced(self.recased(tokens), self.dice)
        if self.odds(self.breaks / 6):
            text = break_bytes(text.encode("ascii"), self.dice).decode("latin-1")
            text = "".join(letter if " " <= letter <= "~" else "?" for letter in text)
        return quoted(text)

    def pairs(self, names):
        tokens = []
        chosen = self.dice.sample(names, min(len(names), self.dice.randint(1, 2))) or ["a"]
        if self.words.slip():
            chosen.append(self.dice.choice(chosen + ["nosuch"]))
        for place, name in enumerate(chosen):
            function = self.dice.choice(rql.FUNCTIONS)
            tokens += ([","] if place else []) + ["(", name, ",", self.dice.choice((function, function.lower())), ")"]
        return tokens

    def call_arguments(self, word):
        names = []
        shape = "single" if word == "AggregateDataInVariable" and self.odds(0.9) else None
        marks = list(self.run.marks.values())
        tables = marks[0][1] if marks and self.odds(0.7) else self.run.now
        query = self.words.select(self.sources(tables), (), True, shape, names)
        arguments = [self.snapshots_query(), query, [self.dice.choice(RESULT_NAMES)]]
        if word == "AggregateDataInVariable":
            function = self.dice.choice(rql.FUNCTIONS)
            arguments.append([self.dice.choice((function, function.lower(), function.title()))])
        if word == "AggregateDataInTable":
            arguments.append(self.pairs(names))
        return arguments

    def call(self):
        word = self.dice.choice(
            ("CollateData", "AggregateDataInVariable", "AggregateDataInTable", "CollateDataIntoIntervals")
        )
        tokens = [word.upper() if self.odds(0.2) else word, "("]
        for place, argument in enumerate(self.call_arguments(word)):
            tokens += ([","] if place else []) + [self.argument(argument)]
        self.single(tokens + [")"])
        if self.odds(0.8) and self.run.results:
            self.of_result()

    # Scripts

    def item(self):
        roll = self.dice.random()
        ways = ((0.4, self.statements), (0.6, self.as_of), (0.66, self.snap_ids))
        ways += ((0.87, self.call), (0.93, self.of_result), (1.0, self.drop))
        next(way for share, way in ways if roll < share)()

    def body(self):
        for phase in range(self.dice.randint(1, 4)):
            if phase or self.odds(0.9):
                self.put(self.dice.choice((b"PHASE", b"PHASE", b"phase")))
            for name in self.dice.sample(SESSION_NAMES, 1):
                self.put(self.dice.choice((b"SESSION ", b"SESSION ", b"session\t ")) + name.encode("ascii"))
                self.run.results = {}
                if phase == 0:
                    self.opening()
                if self.odds(0.2):
                    self.history()
                for _ in range(self.dice.choice((0, 2, 4, 6, 8))):
                    self.item()
                if self.odds(0.15):
                    self.looks()

    def script(self):
        self.body()
        lines = break_script(self.lines, self.dice) if self.odds(0.05) else self.lines
        lines = self.lines if share_a_phase(lines) else lines
        end = b"\r\n" if self.odds(0.05) else b"\n"
        text = end.join(lines) + (b"" if self.odds(0.05) else end)
        return text


SCRIPTS_OF_A_SEED = 20


def scripts(seed):
    """The scripts of a seed, each with its name."""
    for place in range(SCRIPTS_OF_A_SEED):
        yield "s%d_%d" % (seed, place), Maker(seed * SCRIPTS_OF_A_SEED + place).script()
