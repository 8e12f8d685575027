"""Which names and types a statement has: UnknownName goes before NameTaken, NameTaken before WrongType."""

import tree
from refusals import name_taken, unknown_name, wrong_type

INT = "INT"
TEXT = "TEXT"
SNAP_IDS = "SnapIds"
RESULT_MARK = "rql_"


def kind_of_value(value):
    return INT if isinstance(value, int) else TEXT


def is_of_the_session(name):
    return name == SNAP_IDS or name.startswith(RESULT_MARK)


class Scope:
    """The tables that a statement reads: pairs of a name and its columns, which are pairs of name and kind."""

    def __init__(self, tables, snapshot):
        self.tables = tables
        self.snapshot = snapshot

    def columns(self):
        return [column for _, columns in self.tables for column in columns]

    def places(self, col):
        """The places, in a row of all tables, of the columns that a name may stand for."""
        found, start = [], 0
        for name, columns in self.tables:
            for place, (column, _) in enumerate(columns):
                if column == col.name and col.table in (None, name):
                    found.append(start + place)
            start += len(columns)
        return found

    def place(self, col):
        found = self.places(col)
        if not found or (col.table is None and len(found) > 1):
            raise unknown_name()
        return found[0]

    def kind(self, col):
        return self.columns()[self.place(col)][1]


def columns_in(what):
    """The columns, and current_snapshot(), that an expression, condition, aggregate or key names."""
    if isinstance(what, (tree.Col, tree.Current)):
        return [what]
    if isinstance(what, (tree.Step, tree.Compare)):
        return columns_in(what.left) + columns_in(what.right)
    if isinstance(what, tree.Logic):
        return [col for part in what.parts for col in columns_in(part)]
    if isinstance(what, tree.Aggregate) and what.argument is not None:
        return columns_in(what.argument)
    return []


def need_names(scope, *parts):
    for part in parts:
        for col in columns_in(part):
            if isinstance(col, tree.Col):
                scope.place(col)
            elif scope.snapshot is None:
                raise unknown_name()


def kind_of(scope, expression):
    """The kind of an expression; WrongType where it does arithmetic over a text."""
    if isinstance(expression, tree.Literal):
        return kind_of_value(expression.value)
    if isinstance(expression, tree.Current):
        return INT
    if isinstance(expression, tree.Col):
        return scope.kind(expression)
    if kind_of(scope, expression.left) != INT or kind_of(scope, expression.right) != INT:
        raise wrong_type()
    return INT


def need_kinds(scope, condition):
    if isinstance(condition, tree.Logic):
        for part in condition.parts:
            need_kinds(scope, part)
    elif condition is not None:
        if kind_of(scope, condition.left) != kind_of(scope, condition.right):
            raise wrong_type()


# Selects


def is_grouped(select):
    outputs = select.outputs or ()
    return select.group is not None or any(isinstance(o.what, tree.Aggregate) for o in outputs)


def output_names(scope, select):
    if select.outputs is None:
        return [name for name, _ in scope.columns()]
    names = []
    for place, output in enumerate(select.outputs, 1):
        own = output.what.name if isinstance(output.what, tree.Col) else "col%d" % place
        names.append(own if output.name is None else output.name)
    return names


def output_kind(scope, what):
    if not isinstance(what, tree.Aggregate):
        return kind_of(scope, what)
    kind = INT if what.argument is None else kind_of(scope, what.argument)
    if what.function == "SUM" and kind != INT:
        raise wrong_type()
    return INT if what.function in ("COUNT", "SUM") else kind


def output_columns(scope, select):
    """The names and kinds of a checked select's outputs."""
    names = output_names(scope, select)
    if select.outputs is None:
        return list(zip(names, [kind for _, kind in scope.columns()]))
    return list(zip(names, [output_kind(scope, output.what) for output in select.outputs]))


def key_place(scope, select, col):
    """Where an ORDER BY key is found: an output's place, or else a column's."""
    names = output_names(scope, select)
    if col.table is None and col.name in names:
        return "output", names.index(col.name)
    if is_grouped(select) or select.distinct:
        raise unknown_name()
    return "column", scope.place(col)


def stands_in_a_group(scope, select, what):
    if isinstance(what, (tree.Aggregate, tree.Literal, tree.Current)):
        return True
    grouped = [scope.place(col) for col in select.group or ()]
    return isinstance(what, tree.Col) and scope.place(what) in grouped


def check_select(scope, select):
    outputs = [output.what for output in select.outputs or ()]
    need_names(scope, *outputs, select.where, *(select.group or ()))
    for key in select.order:
        key_place(scope, select, key.col)
    if len(set(select.tables)) < len(select.tables):
        raise name_taken()
    need_kinds(scope, select.where)
    output_columns(scope, select)
    if is_grouped(select):
        if select.outputs is None:
            raise wrong_type()
        if not all(stands_in_a_group(scope, select, what) for what in outputs):
            raise wrong_type()


# Statements that change tables


def check_create_table(tables, statement):
    names = [name for name, _ in statement.columns]
    taken = tables.has_name(statement.name) or is_of_the_session(statement.name)
    if taken or len(set(names)) < len(names):
        raise name_taken()


def check_create_index(tables, statement):
    need_names(tables.scope(statement.table), tree.Col(None, statement.column))
    if tables.has_name(statement.name):
        raise name_taken()


def check_insert(tables, statement):
    kinds = [kind for _, kind in tables.scope(statement.table).columns()]
    for values in statement.tuples:
        if [kind_of_value(literal.value) for literal in values] != kinds:
            raise wrong_type()


def check_update(tables, statement):
    scope = tables.scope(statement.table)
    targets = [tree.Col(None, name) for name, _ in statement.sets]
    need_names(scope, *targets, *[value for _, value in statement.sets], statement.where)
    if len(set(targets)) < len(targets):
        raise name_taken()
    for target, (_, value) in zip(targets, statement.sets):
        if kind_of(scope, value) != scope.kind(target):
            raise wrong_type()
    need_kinds(scope, statement.where)


def check_delete(tables, statement):
    scope = tables.scope(statement.table)
    need_names(scope, statement.where)
    need_kinds(scope, statement.where)
