"""Tokens of a line of bytes, each with its place."""

from dataclasses import dataclass

BLANKS = b" \t"
DIGITS = b"0123456789"
LETTERS = b"abcdefghijklmnopqrstuvwxyzABCDEFGHIJKLMNOPQRSTUVWXYZ_"
PAIRS = (b"<>", b"<=", b">=")
SIGNS = b"(),.*+-=<>"
LONGEST_WORD = 32
GREATEST_INTEGER = 2**63 - 1

KEYWORDS = frozenset(
    """CREATE TABLE INT TEXT INDEX ON INSERT INTO VALUES UPDATE SET WHERE DELETE FROM SELECT AS OF
    DISTINCT GROUP BY ORDER LIMIT COUNT SUM MIN MAX CURRENT_SNAPSHOT OR AND NOT ASC DESC COMMIT WITH
    SNAPSHOT ROLLBACK DROP SNAPSHOTS BELOW COLLATEDATA AGGREGATEDATAINVARIABLE AGGREGATEDATAINTABLE
    COLLATEDATAINTOINTERVALS""".split()
)


@dataclass(frozen=True)
class Token:
    kind: str  # word, integer, text or sign
    place: int
    value: object  # the word or sign as a str, the number, or the bytes of the text

    def keyword(self):
        """The keyword that this token is, in capitals, or None."""
        if self.kind == "word" and self.value.upper() in KEYWORDS:
            return self.value.upper()
        return None

    def fits(self):
        """Whether a token of this length or size stands in any sentence."""
        if self.kind == "word":
            return len(self.value) <= LONGEST_WORD
        return self.kind != "integer" or self.value <= GREATEST_INTEGER


@dataclass(frozen=True)
class Lexed:
    tokens: list
    stray: object  # the place of the first byte that is part of no token, or None
    open: bool  # whether the line ends within a text
    length: int


def run_end(line, at, members):
    while at < len(line) and line[at] in members:
        at += 1
    return at


def text_from(line, at):
    """The text whose opening quote is at this place: its bytes and its end; or None and the place of a
    byte that no text holds, or the line's length."""
    held = bytearray()
    at += 1
    while at < len(line):
        if line[at : at + 2] == b"''":
            held.append(line[at])
            at += 2
        elif line[at : at + 1] == b"'":
            return bytes(held), at + 1
        elif 0x20 <= line[at] <= 0x7E:
            held.append(line[at])
            at += 1
        else:
            return None, at
    return None, at


def simple_token(line, at):
    """The token other than a text that begins here, and its end; or None where there is none."""
    if line[at] in LETTERS:
        end = run_end(line, at, LETTERS + DIGITS)
        return Token("word", at, line[at:end].decode("ascii")), end
    if line[at] in DIGITS:
        end = run_end(line, at, DIGITS)
        return Token("integer", at, int(line[at:end])), end
    if line[at : at + 2] in PAIRS:
        return Token("sign", at, line[at : at + 2].decode("ascii")), at + 2
    if line[at] in SIGNS:
        return Token("sign", at, chr(line[at])), at + 1
    return None, at


def lex(line):
    tokens = []
    at = run_end(line, 0, BLANKS)
    while at < len(line):
        if line[at : at + 1] == b"'":
            held, end = text_from(line, at)
            if held is None:
                stray = end if end < len(line) else None
                return Lexed(tokens, stray, stray is None, len(line))
            token = Token("text", at, held)
        else:
            token, end = simple_token(line, at)
            if token is None:
                return Lexed(tokens, at, False, len(line))
        tokens.append(token)
        at = run_end(line, end, BLANKS)
    return Lexed(tokens, None, False, len(line))
