"""Sentences of the language at random, each as a list of token texts; most are meant to be answered."""

import naming

TABLE_NAMES = ("t", "u", "v", "T", "_w")
COLUMN_NAMES = ("a", "b", "c", "k", "A", "n_1")
INDEX_NAMES = ("i", "j", "t", "rql_i")
RESULT_NAMES = ("rql_a", "rql_b", "rql_")
STRANGE_NAMES = ("nosuch", "z", "SnapIds", "rql_zz", "snap_id", "label", "col1", "i", "x" * 32, "x" * 33, "rql_" + "x" * 29)
SMALL = (0, 1, 1, 1, 2, 2, 2, 3, 3, 5, 7, 10, 99)
LARGE = (2**63 - 1, 2**63 - 2, 2**62, 2**62 - 1, 2**32, 2**31, 3037000499, 3037000500, 10**18)
TEXTS = ("", "x", "x", "x", "y", "y", "z", "X", "xx", "xy", "a,b", 'say "hi"', "it's", " ", "~", "0", "'", "-1", '"')
SIGNS = ("=", "=", "<>", "<>", "<", "<=", "<=", ">", ">=", ">=")
AGGREGATES = ("COUNT", "SUM", "MIN", "MAX")


def quoted(text):
    return "'" + text.replace("'", "''") + "'"


def spaced(tokens, dice):
    """The tokens as one text, with or without blanks where both are read alike."""
    out = tokens[0] if tokens else ""
    for left, right in zip(tokens, tokens[1:]):
        worded = (left[-1:].isalnum() or left[-1:] == "_") and (right[:1].isalnum() or right[:1] == "_")
        roll = dice.random()
        touching = roll < 0.3 and not worded and not (left[-1:] == "'" and right[:1] == "'")
        out += ("" if touching else "  " if roll > 0.98 else "\t" if roll > 0.97 else " ") + right
    return out


def commas(parts):
    tokens = []
    for place, part in enumerate(parts):
        tokens += ([","] if place else []) + part
    return tokens


class Scope:
    """What a sentence may name: pairs of a table's name and its columns."""

    def __init__(self, tables, current):
        self.tables = tables
        self.current = current

    def columns(self, kind=None):
        found = []
        for table, columns in self.tables:
            for name, own in columns:
                if kind in (None, own):
                    found.append((table, name, own))
        return found


class Sentences:
    def __init__(self, dice, slips):
        self.dice = dice
        self.slips = slips  # how often a choice is made as it should not be
        self.large = dice.choice((0.02, 0.02, 0.02, 0.02, 0.4))  # how often a number is near the ends

    def odds(self, share):
        return self.dice.random() < share

    def slip(self):
        return self.odds(self.slips)

    def pick(self, things):
        return self.dice.choice(list(things))

    def count(self, least, most):
        return self.dice.randint(least, most)

    def sample(self, things, least, most):
        things = list(things)
        return self.dice.sample(things, min(len(things), self.count(least, most)))

    # Values

    def integer(self):
        number = self.pick(LARGE) if self.odds(self.large) else self.pick(SMALL)
        if number <= 1 and self.odds(0.02):
            return ["00%d" % number]
        return (["-"] if self.odds(0.2) else []) + [str(number)]

    def text(self):
        if self.odds(0.03):
            return [quoted(self.pick("xyz") * self.count(170, 200))]
        return [quoted(self.pick(TEXTS))]

    def literal(self, kind):
        if self.slip():
            kind = self.pick(("INT", "TEXT"))
        return self.integer() if kind == "INT" else self.text()

    def column(self, scope, kind=None):
        """A column of this kind, plain where that is plain enough; a literal's kind has none perhaps."""
        if self.slip():
            name = self.pick(STRANGE_NAMES + COLUMN_NAMES)
            return [self.pick(TABLE_NAMES), ".", name] if self.odds(0.3) else [name]
        found = scope.columns(kind)
        if not found:
            return None
        table, name, _ = self.pick(found)
        twice = sum(1 for _, other, _ in scope.columns() if other == name) > 1
        dotted = self.odds(0.9 if twice else 0.15)
        return [table, ".", name] if dotted else [name]

    def atom(self, scope, kind):
        if kind == "INT" and self.odds(0.25 if scope.current else self.slips / 2):
            return [self.pick(("current_snapshot", "CURRENT_SNAPSHOT")), "(", ")"]
        column = self.column(scope, kind) if self.odds(0.75) else None
        return column or self.literal(kind)

    def arithmetic(self, scope, depth):
        roll = self.dice.random()
        if depth == 0 or roll < 0.4:
            return self.atom(scope, "TEXT" if self.slip() else "INT")
        if roll < 0.5:
            return ["("] + self.arithmetic(scope, depth - 1) + [")"]
        left, right = self.arithmetic(scope, depth - 1), self.arithmetic(scope, depth - 1)
        return left + [self.pick("++-*")] + right

    def expression(self, scope, kind):
        if kind == "INT" and self.odds(0.4):
            return self.arithmetic(scope, 2)
        if self.odds(0.05):
            return ["("] + self.atom(scope, kind) + [")"]
        return self.atom(scope, kind)

    def comparison(self, scope):
        found = scope.columns()
        kind = self.pick(found)[2] if found else "INT"
        other = self.pick(("INT", "TEXT")) if self.slip() else kind
        return self.atom(scope, kind) + [self.pick(SIGNS)] + self.atom(scope, other)

    def condition(self, scope, depth=2):
        roll = self.dice.random()
        if depth == 0 or roll < 0.5:
            return self.comparison(scope)
        if roll < 0.6:
            return ["NOT"] + self.condition(scope, depth - 1)
        inner = self.condition(scope, depth - 1) + [self.pick(("AND", "OR"))] + self.condition(scope, depth - 1)
        return ["("] + inner + [")"] if self.odds(0.4) else inner

    def where(self, scope, share=0.4):
        return ["WHERE"] + self.condition(scope) if self.odds(share) else []

    # Selects

    def aggregate(self, scope):
        function = self.pick(AGGREGATES)
        if function == "COUNT" and self.odds(0.5):
            return ["COUNT", "(", "*", ")"]
        text = function != "SUM" and self.odds(0.4) or self.slip()
        return [function, "("] + self.expression(scope, "TEXT" if text else "INT") + [")"]

    def named(self, output, names):
        """The output with a name or without; its name is added to the names."""
        place = len(names) + 1
        if self.odds(0.4):
            name = self.pick(COLUMN_NAMES + ("s", "n", "snap_id", "value", "start_snapshot", "col1"))
            names.append(name)
            return output + ["AS", name]
        is_column = len(output) == 1 and (output[0][0].isalpha() or output[0][0] == "_")
        is_dotted = len(output) == 3 and output[1] == "."
        names.append(output[-1] if is_column or is_dotted else "col%d" % place)
        return output

    def grouped_outputs(self, scope, group, names):
        outputs = []
        for _ in range(self.count(1, 3)):
            roll = self.dice.random()
            if roll < 0.5 or not group:
                output = self.aggregate(scope)
            elif roll < 0.85:
                output = self.pick(group)
            else:
                output = self.literal("INT")
            if self.slip():
                output = self.expression(scope, "INT")
            outputs.append(self.named(output, names))
        return outputs

    def plain_outputs(self, scope, names, most=3):
        outputs = []
        for _ in range(self.count(1, most)):
            kind = self.pick([own for _, _, own in scope.columns()] or ["INT"])
            outputs.append(self.named(self.expression(scope, kind), names))
        return outputs

    def order(self, scope, names, is_plain):
        """Keys name outputs; in a plain select they may name columns too."""
        if not self.odds(0.4):
            return []
        keys = []
        for _ in range(self.count(1, 2)):
            named = names and self.odds(0.5 if is_plain else 0.96)
            key = [self.pick(names)] if named else self.column(scope)
            keys.append((key or ["a"]) + self.pick(([], [], ["ASC"], ["DESC"])))
        return ["ORDER", "BY"] + commas(keys)

    def limit(self):
        if not self.odds(0.15):
            return []
        return ["LIMIT", str(self.pick((0, 1, 1, 2, 2, 3, 5, 2**63 - 1)))]

    def select(self, sources, front=(), current=False, shape=None, names=None):
        """A select over one or two of the sources, which are pairs of a table's name and its columns."""
        tables = self.sample(sources, 1, 2 if self.odds(0.25) else 1)
        if not tables or self.slip():
            tables = tables[:1] + [(self.pick(TABLE_NAMES + STRANGE_NAMES), [])]
        if self.odds(0.01):
            tables = [tables[0], tables[0]]
        scope = Scope(tables, current)
        names = [] if names is None else names
        shape = shape or self.pick(("star", "plain", "plain", "grouped", "grouped", "one"))
        group, distinct = [], ["DISTINCT"] if self.odds(0.15) else []
        if shape == "star":
            outputs = [["*"]]
            names += [name for _, name, _ in scope.columns()]
        elif shape == "plain":
            outputs = self.plain_outputs(scope, names)
        else:
            if shape == "grouped":
                group = [self.column(scope) or ["a"] for _ in range(self.count(1, 2))]
            outputs = self.grouped_outputs(scope, group, names)
        if shape == "single":
            names.clear()
            outputs = [self.named(self.aggregate(scope), names)]
        tokens = ["SELECT", *front, *distinct] + commas(outputs) + ["FROM"]
        tokens += commas([[name] for name, _ in tables]) + self.where(scope)
        if group and not (self.slip() and self.odds(0.5)):
            tokens += ["GROUP", "BY"] + commas(group)
        is_plain = shape in ("star", "plain") and not distinct
        return tokens + self.order(scope, names, is_plain) + self.limit()

    # Statements that change tables

    def create_table(self, known):
        free = [name for name in TABLE_NAMES if name not in known]
        name = self.pick(free or TABLE_NAMES)
        if self.slip():
            name = self.pick(TABLE_NAMES + STRANGE_NAMES + INDEX_NAMES)
        columns = self.sample(COLUMN_NAMES, 1, 3)
        if self.odds(0.06):
            columns = ["c%d" % place for place in range(self.pick((5, 5, 6, 7, 16, 17)))]
        if self.slip():
            columns.append(self.pick(columns))
        kinds = ("TEXT",) if len(columns) > 4 and self.odds(0.8) else ("INT", "INT", "TEXT")
        parts = [[column, self.pick(kinds)] for column in columns]
        return ["CREATE", "TABLE", name, "("] + commas(parts) + [")"]

    def create_index(self, sources):
        table, columns = self.pick(sources)
        column = self.pick([name for name, _ in columns])
        if self.slip():
            table, column = self.pick(((table, "nosuch"), (self.pick(STRANGE_NAMES), column)))
        return ["CREATE", "INDEX", self.pick(INDEX_NAMES), "ON", table, "(", column, ")"]

    def tuple(self, columns):
        kinds = [kind for _, kind in columns]
        if self.slip():
            kinds = kinds[1:] or kinds * 2
        if kinds.count("TEXT") > 4 and self.odds(0.5):
            return ["("] + commas(self.long_row(kinds)) + [")"]
        return ["("] + commas([self.literal(kind) for kind in kinds]) + [")"]

    def long_row(self, kinds):
        """Values of a row that is about as long as a row may be."""
        texts = kinds.count("TEXT")
        left = self.count(898, 902) - 9 - 2 * texts - 9 * (len(kinds) - texts)
        lengths = []
        for place in range(texts):
            rest = texts - place - 1
            lengths.append(min(200, left if rest == 0 else self.count(max(0, left - 200 * rest), min(200, left))))
            left -= lengths[-1]
        return [[quoted("x" * lengths.pop())] if kind == "TEXT" else self.integer() for kind in kinds]

    def insert(self, sources, most=4):
        table, columns = self.pick(sources)
        tuples = [self.tuple(columns) for _ in range(self.count(1, most))]
        if self.slip():
            table = self.pick(TABLE_NAMES + STRANGE_NAMES)
        return ["INSERT", "INTO", table, "VALUES"] + commas(tuples)

    def update(self, sources):
        table, columns = self.pick(sources)
        scope = Scope([(table, columns)], False)
        sets = []
        for name, kind in self.sample(columns, 1, 2):
            if self.slip():
                name = self.pick(STRANGE_NAMES + COLUMN_NAMES)
            if self.slip():
                kind = "TEXT"
            sets.append([name, "="] + self.expression(scope, kind))
        return ["UPDATE", table, "SET"] + commas(sets) + self.where(scope, 0.6)

    def delete(self, sources):
        table, columns = self.pick(sources)
        where = self.where(Scope([(table, columns)], False), 0.95)
        return ["DELETE", "FROM", table if not self.slip() else self.pick(STRANGE_NAMES)] + where

    def statement(self, tables):
        """A statement of a transaction over the tables that are known."""
        sources = [(name, list(table.columns)) for name, table in tables.tables.items()]
        roll = self.dice.random()
        if not sources or roll < 0.05:
            return self.create_table(tables.tables)
        if roll < 0.08:
            return self.create_index(sources)
        if roll < 0.35:
            return self.insert(sources)
        if roll < 0.55:
            return self.update(sources)
        if roll < 0.65:
            return self.delete(sources)
        return self.select(sources)


SNAP_SOURCE = (naming.SNAP_IDS, [("snap_id", "INT"), ("label", "TEXT")])
