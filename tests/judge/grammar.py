"""The grammar: from a line of bytes to its tree, or the place where its syntax breaks."""

import tree
from lexer import lex
from refusals import syntax

MOST_COLUMNS = 16
LONGEST_VALUE = 200
LONGEST_LABEL = 64
COMPARISONS = ("=", "<>", "<", "<=", ">", ">=")


class Reader:
    """Takes tokens one by one; each refusal is at the first token with which no sentence begins."""

    def __init__(self, lexed):
        self.tokens = lexed.tokens
        self.length = lexed.length
        self.at = 0

    def fail(self):
        if self.at < len(self.tokens):
            raise syntax(self.tokens[self.at].place)
        raise syntax(self.length)

    def peek(self):
        if self.at < len(self.tokens) and self.tokens[self.at].fits():
            return self.tokens[self.at]
        return None

    def is_sign(self, *signs):
        token = self.peek()
        return token is not None and token.kind == "sign" and token.value in signs

    def is_word(self, *words):
        token = self.peek()
        return token is not None and token.keyword() in words

    def take(self):
        token = self.peek()
        if token is None:
            self.fail()
        self.at += 1
        return token

    def sign(self, *signs):
        if not self.is_sign(*signs):
            self.fail()
        return self.take().value

    def word(self, *words):
        if not self.is_word(*words):
            self.fail()
        return self.take().keyword()

    def skip_sign(self, sign):
        if self.is_sign(sign):
            self.at += 1
            return True
        return False

    def skip_word(self, word):
        if self.is_word(word):
            self.at += 1
            return True
        return False

    def name(self):
        token = self.peek()
        if token is None or token.kind != "word" or token.keyword() is not None:
            self.fail()
        return self.take().value

    def integer(self):
        token = self.peek()
        if token is None or token.kind != "integer":
            self.fail()
        return self.take().value

    def text(self, longest=None):
        token = self.peek()
        if token is None or token.kind != "text":
            self.fail()
        if longest is not None and len(token.value) > longest:
            self.fail()
        return self.take()

    def listed(self, one):
        parts = [one()]
        while self.skip_sign(","):
            parts.append(one())
        return tuple(parts)

    # Values and expressions

    def literal(self):
        token = self.peek()
        if token is not None and token.kind == "text":
            return tree.Literal(self.text(LONGEST_VALUE).value)
        if self.skip_sign("-"):
            return tree.Literal(-self.integer())
        return tree.Literal(self.integer())

    def column(self):
        first = self.name()
        if self.skip_sign("."):
            return tree.Col(first, self.name())
        return tree.Col(None, first)

    def operand(self):
        token = self.peek()
        if token is None:
            self.fail()
        if self.skip_word("CURRENT_SNAPSHOT"):
            self.sign("(")
            self.sign(")")
            return tree.Current()
        if token.kind == "word":
            return self.column()
        return self.literal()

    def factor(self):
        if self.skip_sign("("):
            inner = self.expression()
            self.sign(")")
            return inner
        return self.operand()

    def term(self):
        left = self.factor()
        while self.skip_sign("*"):
            left = tree.Step("*", left, self.factor())
        return left

    def expression(self):
        left = self.term()
        while self.is_sign("+", "-"):
            sign = self.sign("+", "-")
            left = tree.Step(sign, left, self.term())
        return left

    # Conditions

    def comparison(self):
        left = self.operand()
        sign = self.sign(*COMPARISONS)
        return tree.Compare(sign, left, self.operand())

    def negation(self):
        if self.skip_word("NOT"):
            return tree.Logic("NOT", (self.negation(),))
        if self.skip_sign("("):
            inner = self.condition()
            self.sign(")")
            return inner
        return self.comparison()

    def conjunction(self):
        parts = [self.negation()]
        while self.skip_word("AND"):
            parts.append(self.negation())
        return tree.Logic("AND", tuple(parts))

    def condition(self):
        parts = [self.conjunction()]
        while self.skip_word("OR"):
            parts.append(self.conjunction())
        return tree.Logic("OR", tuple(parts))

    def where(self):
        return self.condition() if self.skip_word("WHERE") else None

    # Select

    def output(self):
        if self.is_word(*tree.AGGREGATES):
            function = self.word(*tree.AGGREGATES)
            self.sign("(")
            star = function == "COUNT" and self.skip_sign("*")
            what = tree.Aggregate(function, None if star else self.expression())
            self.sign(")")
        else:
            what = self.expression()
        return tree.Output(what, self.name() if self.skip_word("AS") else None)

    def key(self):
        col = self.column()
        if self.is_word("ASC", "DESC"):
            return tree.Key(col, self.word("ASC", "DESC") == "DESC")
        return tree.Key(col, False)

    def by(self, word, one):
        if not self.skip_word(word):
            return None
        self.word("BY")
        return self.listed(one)

    def select_rest(self):
        distinct = self.skip_word("DISTINCT")
        outputs = None if self.skip_sign("*") else self.listed(self.output)
        self.word("FROM")
        tables = [self.name()]
        if self.skip_sign(","):
            tables.append(self.name())
        where = self.where()
        group = self.by("GROUP", self.column)
        order = self.by("ORDER", self.key) or ()
        limit = self.integer() if self.skip_word("LIMIT") else None
        return tree.Select(distinct, outputs, tuple(tables), where, group, order, limit)

    def select(self):
        if self.skip_word("AS"):
            self.word("OF")
            snapshot = self.integer()
            return tree.AsOf(snapshot, self.select_rest())
        return self.select_rest()

    # Other sentences

    def column_definition(self):
        return self.name(), self.word("INT", "TEXT")

    def create(self):
        if self.word("TABLE", "INDEX") == "INDEX":
            return self.create_index()
        name = self.name()
        self.sign("(")
        columns = [self.column_definition()]
        while len(columns) < MOST_COLUMNS and self.skip_sign(","):
            columns.append(self.column_definition())
        self.sign(")")
        return tree.CreateTable(name, tuple(columns))

    def create_index(self):
        name = self.name()
        self.word("ON")
        table = self.name()
        self.sign("(")
        column = self.name()
        self.sign(")")
        return tree.CreateIndex(name, table, column)

    def tuple(self):
        self.sign("(")
        values = self.listed(self.literal)
        self.sign(")")
        return values

    def insert(self):
        self.word("INTO")
        table = self.name()
        self.word("VALUES")
        return tree.Insert(table, self.listed(self.tuple))

    def set(self):
        column = self.name()
        self.sign("=")
        return column, self.expression()

    def update(self):
        table = self.name()
        self.word("SET")
        sets = self.listed(self.set)
        return tree.Update(table, sets, self.where())

    def delete(self):
        self.word("FROM")
        table = self.name()
        return tree.Delete(table, self.where())

    def commit(self):
        if not self.skip_word("WITH"):
            return tree.Commit(None)
        self.word("SNAPSHOT")
        if self.at == len(self.tokens):
            return tree.Commit(b"")
        return tree.Commit(self.text(LONGEST_LABEL).value)

    def drop(self):
        self.word("SNAPSHOTS")
        self.word("BELOW")
        return tree.DropBelow(self.integer())

    def call(self, word):
        arguments = []
        self.sign("(")
        for place in range(tree.RQL_WORDS[word]):
            if place:
                self.sign(",")
            token = self.text()
            arguments.append((token.value, token.place))
        self.sign(")")
        return tree.Call(word, tuple(arguments))

    def sentence(self):
        ways = {
            "CREATE": self.create,
            "INSERT": self.insert,
            "UPDATE": self.update,
            "DELETE": self.delete,
            "SELECT": self.select,
            "COMMIT": self.commit,
            "ROLLBACK": tree.Rollback,
            "DROP": self.drop,
        }
        word = self.word(*ways, *tree.RQL_WORDS)
        said = self.call(word) if word in tree.RQL_WORDS else ways[word]()
        if self.at < len(self.tokens):
            self.fail()
        return said


def parse(line):
    """The tree of a trimmed line, or Syntax with its place."""
    lexed = lex(line)
    if lexed.stray is not None:
        raise syntax(lexed.stray)
    said = Reader(lexed).sentence()
    if lexed.open:
        raise syntax(lexed.length)
    return said
