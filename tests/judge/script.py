"""A script's phases, sessions and items, or the number of the first line that breaks a rule."""

from dataclasses import dataclass, field

import grammar
import naming
import tree
from lexer import BLANKS, lex
from refusals import BadScript, Refused

LONGEST_SCRIPT = 4194304
LONGEST_LINE = 4096
MOST_PHASES = 4096
MOST_SESSIONS = 16
MOST_ITEMS = 65536
LONGEST_NAME = 16
NAME_BYTES = b"abcdefghijklmnopqrstuvwxyz0123456789"
WORKERS = (b"copier", b"flusher")


@dataclass
class Item:
    lines: list  # one line of a single item; of a transaction its statements and then its last line
    is_single: bool


@dataclass
class Session:
    name: str
    items: list = field(default_factory=list)


def lines_of(data):
    """The lines without their ends, and after each the number of bytes up to its end."""
    parts = data.split(b"\n")
    ended = parts[:-1] + ([parts[-1]] if parts[-1] else [])
    total = 0
    for place, part in enumerate(ended):
        has_end = place < len(parts) - 1
        total += len(part) + has_end
        yield (part[:-1] if has_end and part.endswith(b"\r") else part), total


def trimmed(line):
    line = line.strip(BLANKS)
    return line[:-1].rstrip(BLANKS) if line.endswith(b";") else line


def class_of(line):
    """What kind of statement line this is: end, single or statement."""
    tokens = lex(line).tokens
    words = [token.keyword() for token in tokens]
    if words[:1] in (["COMMIT"], ["ROLLBACK"]):
        return "end"
    if words[:3] == ["SELECT", "AS", "OF"] or words[:2] == ["DROP", "SNAPSHOTS"]:
        return "single"
    if words and words[0] in tree.RQL_WORDS:
        return "single"
    if words[:1] == ["SELECT"] and "FROM" in words:
        behind = tokens[words.index("FROM") + 1 :]
        if behind and behind[0].kind == "word" and naming.is_of_the_session(behind[0].value):
            return "single"
    return "statement"


class Reading:
    """Reads lines one by one; each method that finds a rule broken answers False."""

    def __init__(self):
        self.phases = []
        self.session = None
        self.open = None
        self.items = 0

    def opens_phase(self):
        self.phases.append([])
        self.session = None
        return len(self.phases) <= MOST_PHASES

    def opens_session(self, name):
        if not self.phases:
            self.phases.append([])
        phase = self.phases[-1]
        is_name = 1 <= len(name) <= LONGEST_NAME and all(byte in NAME_BYTES for byte in name)
        if not is_name or name in WORKERS:
            return False
        if len(phase) == MOST_SESSIONS or any(session.name.encode() == name for session in phase):
            return False
        self.session = Session(name.decode("ascii"))
        phase.append(self.session)
        return True

    def opens_item(self, is_single):
        self.items += 1
        item = Item([], is_single)
        self.session.items.append(item)
        self.open = None if is_single else item
        return item

    def takes_statement(self, line):
        if self.session is None:
            return False
        kind = class_of(line)
        if kind == "single":
            if self.open is not None:
                return False
            self.opens_item(True).lines.append(line)
            return self.items <= MOST_ITEMS
        item = self.open or self.opens_item(False)
        item.lines.append(line)
        if kind == "end":
            self.open = None
            try:
                grammar.parse(line)
            except Refused:
                return False
        return self.items <= MOST_ITEMS

    def takes(self, line):
        words = line.replace(b"\t", b" ").split(b" ", 1)
        word = words[0].upper()
        if line == b"" or line.startswith((b"#", b"--")):
            return True
        if word == b"PHASE" and len(words) == 1:
            return self.open is None and self.opens_phase()
        if word == b"SESSION":
            name = words[1].strip(b" ") if len(words) == 2 else b""
            return self.open is None and self.opens_session(name)
        return self.takes_statement(line)


def read(data):
    """The phases, each a list of sessions; BadScript at the first line that breaks a rule."""
    reading = Reading()
    number = 0
    for number, (line, total) in enumerate(lines_of(data), 1):
        fits = len(line) <= LONGEST_LINE and total <= LONGEST_SCRIPT
        if not fits or not reading.takes(trimmed(line)):
            raise BadScript(number)
    if reading.open is not None:
        raise BadScript(number + 1)
    return reading.phases
