"""The texts of scripts and transcripts, of which made cases are put together."""


def replies(items):
    return "".join(f"item {number}\n{reply}\n" for number, reply in enumerate(items, 1))


def transcript(items, journal):
    """The text of one session `a` of phase 1: the replies of its items, and what the journal says of each."""
    return "phase 1\nsession a\n" + replies(items) + "journal\n" + "".join(f"1 a {line}\n" for line in journal)


def looked(number, what):
    return [f"{number} looked {what}", f"{number} unlooked"]


def rows_of(found):
    lines = [",".join(map(str, row)) for row in found]
    return "\n".join([f"rows {len(lines)}", *lines])


def inserted(table, rows, count):
    """Statements that insert the rows, so many in each, and their replies."""
    parts = [rows[at : at + count] for at in range(0, len(rows), count)]
    tuples = (",".join(f"({','.join(map(repr, row))})" for row in part) for part in parts)
    return [f"INSERT INTO {table} VALUES {them}" for them in tuples], [f"ok {len(part)}" for part in parts]


def lines_of(statements):
    assert max(map(len, statements)) <= 4096
    return "".join(f"{statement}\n" for statement in statements)
