"""Calls over many snapshots: what their arguments say, and the tables they make."""

from dataclasses import dataclass

import grammar
import meaning
import naming
import tree
from lexer import lex
from refusals import Refused, name_taken, overflow, syntax, unknown_name, wrong_type

FUNCTIONS = ("MIN", "MAX", "SUM", "COUNT")


@dataclass(frozen=True)
class Spoken:
    """A call whose arguments are in their forms."""

    word: str
    snapshots: tree.Select
    query: tree.Select
    result: str
    last: object  # the function, the pairs of column and function, or None


# Arguments; each reading raises Syntax, whatever its place, where the argument is outside its form


def whole(text):
    lexed = lex(text)
    if lexed.stray is not None or lexed.open:
        raise syntax(0)
    return grammar.Reader(lexed)


def ended(reader, said):
    if reader.at < len(reader.tokens):
        reader.fail()
    return said


def query_of(text):
    said = grammar.parse(text)
    if not isinstance(said, tree.Select):
        raise syntax(0)
    return said


def snapshots_of(text):
    said = query_of(text)
    front = [token.keyword() or token.value for token in lex(text).tokens[:4]]
    plain = front == ["SELECT", "snap_id", "FROM", naming.SNAP_IDS]
    if not plain or len(said.tables) > 1 or said.group is not None:
        raise syntax(0)
    return said


def result_of(text):
    reader = whole(text)
    name = ended(reader, reader.name())
    if not name.startswith(naming.RESULT_MARK) or len(name) < len(text):
        raise syntax(0)
    return name


def function_of(text):
    reader = whole(text)
    function = ended(reader, reader.word(*FUNCTIONS))
    if len(function) < len(text):
        raise syntax(0)
    return function


def pairs_of(text):
    reader = whole(text)

    def pair():
        reader.sign("(")
        column = reader.name()
        reader.sign(",")
        function = reader.word(*FUNCTIONS)
        reader.sign(")")
        return column, function

    return ended(reader, reader.listed(pair))


def spoken(call):
    """What a call says; Syntax at the opening quote of its first argument outside its form."""
    readings = [snapshots_of, query_of, result_of]
    if call.word == "AGGREGATEDATAINVARIABLE":
        readings.append(function_of)
    if call.word == "AGGREGATEDATAINTABLE":
        readings.append(pairs_of)
    said = []
    for reading, (text, place) in zip(readings, call.arguments):
        try:
            said.append(reading(text))
        except Refused:
            raise syntax(place) from None
    return Spoken(call.word, *said, *([None] if len(said) == 3 else []))


# Result tables


def need_different(names):
    if len(set(names)) < len(names):
        raise name_taken()


def collated(snapshots, answered):
    columns, rows = [], []
    for number in snapshots:
        one = answered(number)
        need_different([name for name, _ in one.columns])
        columns = one.columns
        rows.extend(one.rows)
    return meaning.Answer(columns, rows)


def folded(function, values):
    if function == "COUNT":
        return len(values)
    if function == "SUM":
        total = sum(values)
        if not meaning.LEAST <= total <= meaning.GREATEST:
            raise overflow()
        return total
    return min(values) if function == "MIN" else max(values)


def in_variable(snapshots, answered, function):
    kind, values = naming.INT, []
    for number in snapshots:
        one = answered(number)
        if len(one.columns) == 1 and function == "SUM" and one.columns[0][1] != naming.INT:
            raise wrong_type()
        if len(one.columns) != 1 or len(one.rows) != 1:
            raise Refused(25, number)
        kind = one.columns[0][1]
        values.append(one.rows[0][0])
    if function in ("COUNT", "SUM"):
        return meaning.Answer([("value", naming.INT)], [(folded(function, values),)])
    rows = [(folded(function, values),)] if values else []
    return meaning.Answer([("value", kind)], rows)


def paired_places(columns, pairs):
    """The place and function of each pair's column."""
    names = [name for name, _ in columns]
    if any(name not in names for name, _ in pairs):
        raise unknown_name()
    need_different(names)
    need_different([name for name, _ in pairs])
    functions = {names.index(name): function for name, function in pairs}
    for place, function in functions.items():
        if function == "SUM" and columns[place][1] != naming.INT:
            raise wrong_type()
    return functions


def in_table(snapshots, answered, pairs):
    columns, rows, functions = [], [], {}
    for number in snapshots:
        one = answered(number)
        columns = one.columns
        functions = paired_places(columns, pairs)
        rows.extend(one.rows)
    groups = {}
    for row in rows:
        key = tuple(value for place, value in enumerate(row) if place not in functions)
        groups.setdefault(key, []).append(row)
    made = []
    for members in groups.values():
        row = list(members[0])
        for place, function in functions.items():
            row[place] = folded(function, [member[place] for member in members])
        made.append(tuple(row))
    kinds = [naming.INT if functions.get(at) == "COUNT" else kind for at, (_, kind) in enumerate(columns)]
    return meaning.Answer([(name, kind) for (name, _), kind in zip(columns, kinds)], made)


def intervals(snapshots, answered):
    columns, answers = [], []
    for number in snapshots:
        one = answered(number)
        columns = one.columns + [("start_snapshot", naming.INT), ("end_snapshot", naming.INT)]
        need_different([name for name, _ in columns])
        answers.append(meaning.first_of_equals(one.rows))
    rows = []
    for start, present in enumerate(answers):
        for row in present:
            if start and row in answers[start - 1]:
                continue
            end = start
            while end + 1 < len(answers) and row in answers[end + 1]:
                end += 1
            rows.append(row + (snapshots[start], snapshots[end]))
    return meaning.Answer(columns, rows)


def run(call, snapshots, answered):
    """The result table of a spoken call over these snapshots, where `answered` answers its query at one."""
    if call.word == "COLLATEDATA":
        return collated(snapshots, answered)
    if call.word == "AGGREGATEDATAINVARIABLE":
        return in_variable(snapshots, answered, call.last)
    if call.word == "AGGREGATEDATAINTABLE":
        return in_table(snapshots, answered, call.last)
    return intervals(snapshots, answered)
