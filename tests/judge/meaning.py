"""What a statement does to plain tables, and what a select answers."""

from dataclasses import dataclass, replace

import naming
import tree
from refusals import Refused, overflow, unknown_name

LEAST, GREATEST = -(2**63), 2**63 - 1
LONGEST_ROW = 900


@dataclass(frozen=True)
class Table:
    columns: tuple  # pairs of name and kind
    next: int
    rows: tuple  # pairs of row number and row, in rising number


class Tables:
    """Tables by name, and indexes by name. Never changed in place."""

    def __init__(self, tables=None, indexes=None):
        self.tables = tables or {}
        self.indexes = indexes or {}

    def has_name(self, name):
        return name in self.tables or name in self.indexes

    def table(self, name):
        if name not in self.tables:
            raise unknown_name()
        return self.tables[name]

    def scope(self, name):
        return naming.Scope([(name, self.table(name).columns)], None)

    def put(self, name, table):
        return Tables({**self.tables, name: table}, self.indexes)

    def source(self, name):
        """The columns and rows of a table that a select reads."""
        table = self.table(name)
        return table.columns, [row for _, row in table.rows]


@dataclass(frozen=True)
class Answer:
    columns: list  # pairs of name and kind
    rows: list  # tuples of values


# Values of expressions and conditions over one row of all tables


def within(number):
    if not LEAST <= number <= GREATEST:
        raise overflow()
    return number


def value_of(scope, expression, row):
    if isinstance(expression, tree.Literal):
        return expression.value
    if isinstance(expression, tree.Current):
        return scope.snapshot
    if isinstance(expression, tree.Col):
        return row[scope.place(expression)]
    left = value_of(scope, expression.left, row)
    right = value_of(scope, expression.right, row)
    if expression.sign == "*":
        return within(left * right)
    return within(left + right if expression.sign == "+" else left - right)


def compares(sign, left, right):
    return {
        "=": left == right,
        "<>": left != right,
        "<": left < right,
        "<=": left <= right,
        ">": left > right,
        ">=": left >= right,
    }[sign]


def holds(scope, condition, row):
    if condition is None:
        return True
    if isinstance(condition, tree.Compare):
        left = value_of(scope, condition.left, row)
        return compares(condition.sign, left, value_of(scope, condition.right, row))
    held = [holds(scope, part, row) for part in condition.parts]
    if condition.word == "NOT":
        return not held[0]
    return all(held) if condition.word == "AND" else any(held)


# Selects


def joined(sources):
    rows = [()]
    for _, own in sources:
        rows = [left + tuple(right) for left in rows for right in own]
    return rows


def aggregate_value(scope, aggregate, rows):
    if aggregate.argument is None:
        return len(rows)
    values = [value_of(scope, aggregate.argument, row) for row in rows]
    if aggregate.function == "COUNT":
        return len(values)
    if aggregate.function == "SUM":
        return within(sum(values))
    return min(values) if aggregate.function == "MIN" else max(values)


def group_row(scope, select, rows):
    """The one row of a group that has rows."""
    row = []
    for output in select.outputs:
        if isinstance(output.what, tree.Aggregate):
            row.append(aggregate_value(scope, output.what, rows))
        else:
            row.append(value_of(scope, output.what, rows[0]))
    return tuple(row)


def row_over_nothing(scope, select):
    row = []
    for output in select.outputs:
        if not isinstance(output.what, tree.Aggregate):
            row.append(value_of(scope, output.what, ()))
        elif output.what.function in ("COUNT", "SUM"):
            row.append(0)
        else:
            return []
    return [tuple(row)]


def grouped_rows(scope, select, kept):
    if select.group is None:
        return [group_row(scope, select, kept)] if kept else row_over_nothing(scope, select)
    places = [scope.place(col) for col in select.group]
    groups = {}
    for row in kept:
        groups.setdefault(tuple(row[place] for place in places), []).append(row)
    return [group_row(scope, select, rows) for rows in groups.values()]


def plain_row(scope, select, row):
    if select.outputs is None:
        return row
    return tuple(value_of(scope, output.what, row) for output in select.outputs)


def first_of_equals(rows):
    return list(dict.fromkeys(rows))


def ordered(scope, select, rows):
    """Rows are pairs of an output row and the row of all tables it was made from."""
    for key in reversed(select.order):
        where, place = naming.key_place(scope, select, key.col)
        side = 0 if where == "output" else 1
        rows.sort(key=lambda pair: pair[side][place], reverse=key.falling)
    return rows


def answer(select, source, snapshot):
    """The answer of a select over the tables that `source` gives by name, or its refusal."""
    sources = [source(name) for name in select.tables]
    tables = [(name, columns) for name, (columns, _) in zip(select.tables, sources)]
    scope = naming.Scope(tables, snapshot)
    naming.check_select(scope, select)
    kept = [row for row in joined(sources) if holds(scope, select.where, row)]
    if naming.is_grouped(select):
        rows = [(row, None) for row in grouped_rows(scope, select, kept)]
    else:
        rows = [(plain_row(scope, select, row), row) for row in kept]
    if select.distinct:
        rows = [(row, None) for row in first_of_equals([row for row, _ in rows])]
    rows = [row for row, _ in ordered(scope, select, rows)]
    if select.limit is not None:
        rows = rows[: select.limit]
    return Answer(naming.output_columns(scope, select), rows)


# Statements that change tables


def encoded_length(row):
    return 9 + sum(9 if isinstance(value, int) else 2 + len(value) for value in row)


def need_short(rows):
    for row in rows:
        length = encoded_length(row)
        if length > LONGEST_ROW:
            raise Refused(24, length)


def create_table(statement, tables):
    naming.check_create_table(tables, statement)
    return tables.put(statement.name, Table(statement.columns, 0, ())), ["ok"]


def create_index(statement, tables):
    naming.check_create_index(tables, statement)
    place = (statement.table, statement.column)
    return Tables(tables.tables, {**tables.indexes, statement.name: place}), ["ok"]


def insert(statement, tables):
    naming.check_insert(tables, statement)
    rows = [tuple(literal.value for literal in values) for values in statement.tuples]
    need_short(rows)
    table = tables.table(statement.table)
    added = tuple(enumerate(rows, table.next))
    table = replace(table, next=table.next + len(rows), rows=table.rows + added)
    return tables.put(statement.table, table), ["ok %d" % len(rows)]


def update(statement, tables):
    naming.check_update(tables, statement)
    scope = tables.scope(statement.table)
    table = tables.table(statement.table)
    rows, changed = [], []
    for number, row in table.rows:
        if holds(scope, statement.where, row):
            new = list(row)
            for name, value in statement.sets:
                new[scope.place(tree.Col(None, name))] = value_of(scope, value, row)
            row = tuple(new)
            changed.append(row)
        rows.append((number, row))
    need_short(changed)
    table = replace(table, rows=tuple(rows))
    return tables.put(statement.table, table), ["ok %d" % len(changed)]


def delete(statement, tables):
    naming.check_delete(tables, statement)
    scope = tables.scope(statement.table)
    table = tables.table(statement.table)
    left = tuple(pair for pair in table.rows if not holds(scope, statement.where, pair[1]))
    reply = ["ok %d" % (len(table.rows) - len(left))]
    return tables.put(statement.table, replace(table, rows=left)), reply


def printed_field(value, alone):
    text = str(value) if isinstance(value, int) else value.decode("ascii")
    if "," in text or '"' in text or (alone and not text):
        return '"' + text.replace('"', '""') + '"'
    return text


def printed(answered):
    lines = ["rows %d" % len(answered.rows)]
    for row in answered.rows:
        lines.append(",".join(printed_field(value, len(row) == 1) for value in row))
    return lines


WAYS = {
    tree.CreateTable: create_table,
    tree.CreateIndex: create_index,
    tree.Insert: insert,
    tree.Update: update,
    tree.Delete: delete,
}


def does(statement, tables):
    """The tables behind a statement of a transaction, and its reply."""
    if isinstance(statement, tree.Select):
        return tables, printed(answer(statement, tables.source, None))
    return WAYS[type(statement)](statement, tables)
