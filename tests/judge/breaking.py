"""Ways to break a line in a small way."""

import naming
from lexer import KEYWORDS
from sentences import COLUMN_NAMES, STRANGE_NAMES, TABLE_NAMES, quoted

NUMBERS = ("9223372036854775807", "9223372036854775808", "18446744073709551616", "0", "1", "2", "007")
SIGNS = tuple("(),.*+-=<>") + ("<>", "<=", ">=")
STRAY_BYTES = (b"?", b";", b'"', b"\x01", b"\x7f", b"\x80", b"\xff", b"!", b"#", b"/", b"\r", b"\t", b"[", b"%")
LENGTHS = (64, 65, 200, 201, 300)


def random_token(dice):
    roll = dice.random()
    if roll < 0.35:
        word = dice.choice(sorted(KEYWORDS))
        return word.lower() if dice.random() < 0.3 else word
    if roll < 0.5:
        return dice.choice(TABLE_NAMES + COLUMN_NAMES + STRANGE_NAMES)
    if roll < 0.7:
        return dice.choice(SIGNS)
    if roll < 0.82:
        return dice.choice(NUMBERS)
    if roll < 0.9:
        return quoted("x" * dice.choice(LENGTHS))
    if roll < 0.95:
        return dice.choice("xR") * dice.choice((31, 32, 33, 40))
    return quoted(dice.choice(("", "x", "one", "it's")))


def drop(tokens, at, dice):
    return tokens[:at] + tokens[at + 1 :]


def double(tokens, at, dice):
    return tokens[: at + 1] + tokens[at:]


def swap(tokens, at, dice):
    return tokens[:at] + tokens[at + 1 : at + 2] + tokens[at : at + 1] + tokens[at + 2 :]


def exchange(tokens, at, dice):
    return tokens[:at] + [random_token(dice)] + tokens[at + 1 :]


def insert(tokens, at, dice):
    return tokens[:at] + [random_token(dice)] + tokens[at:]


def cut(tokens, at, dice):
    return tokens[:at]


def recase(tokens, at, dice):
    word = tokens[at]
    return tokens[:at] + [word.swapcase() if dice.random() < 0.5 else word.title()] + tokens[at + 1 :]


TOKEN_WAYS = (drop, drop, double, swap, exchange, exchange, exchange, insert, insert, cut, recase)


def break_tokens(tokens, dice):
    """The tokens broken, at any place but the front in most cases."""
    at = dice.randrange(len(tokens)) if dice.random() < 0.25 else dice.randrange(min(1, len(tokens) - 1), len(tokens))
    return dice.choice(TOKEN_WAYS)(tokens, at, dice) or ["SELECT"]


def cut_bytes(line, at, dice):
    return line[:at] or b"x"


def stray_byte(line, at, dice):
    return line[:at] + dice.choice(STRAY_BYTES) + line[at:]


def drop_byte(line, at, dice):
    return line[:at] + line[at + 1 :]


def open_text(line, at, dice):
    quotes = [place for place, byte in enumerate(line) if byte == 0x27]
    return drop_byte(line, dice.choice(quotes), dice) if quotes else line[:at] + b"'" + line[at:]


BYTE_WAYS = (cut_bytes, stray_byte, stray_byte, drop_byte, open_text, open_text)


def break_bytes(line, dice):
    return dice.choice(BYTE_WAYS)(line, dice.randrange(len(line)), dice) if line else line


# Scripts broken as a whole: each way takes the lines of a good script


def insert_line(lines, dice, extra):
    at = dice.randrange(len(lines) + 1)
    return lines[:at] + [extra] + lines[at:]


def break_script(lines, dice):
    """The lines broken in their structure, mostly in a way that is a bad script."""
    roll = dice.randrange(9)
    if roll == 0:
        return lines[: dice.randrange(len(lines) + 1)]
    if roll == 1:
        return insert_line(lines, dice, dice.choice((b"PHASE", b"phase ;", b"SESSION zz", b"session\tq1;")))
    if roll == 2:
        names = (b"SESSION A", b"SESSION", b"SESSION a b", b"SESSION copier", b"session flusher", b"SESSION a_b")
        return insert_line(lines, dice, dice.choice(names + (b"SESSION " + b"s" * 17, b"SESSION a.", b"PHASE 2")))
    if roll == 3:
        ends = (b"COMMIT COMMIT", b"ROLLBACK;;", b"COMMIT WITH", b"COMMIT WITH SNAPSHOT one", b"COMMIT 'x")
        label = b"COMMIT WITH SNAPSHOT '" + b"l" * dice.choice((64, 65)) + b"'"
        return insert_line(lines, dice, dice.choice(ends + (label, b"commit ?", b"COMMIT", b"rollback ;")))
    if roll == 4:
        return insert_line(lines, dice, b"SELECT * FROM " + naming.SNAP_IDS.encode())
    if roll == 5:
        return insert_line(lines, dice, dice.choice((b"-", b"# ")) + b"-" * dice.choice((4094, 4095, 4096)))
    if roll == 6:
        at = dice.randrange(len(lines))
        return lines[:at] + lines[at + 1 :]
    if roll == 7:
        at = dice.randrange(len(lines))
        return lines[:at] + [break_bytes(lines[at], dice)] + lines[at + 1 :]
    return lines + [dice.choice(lines)]
