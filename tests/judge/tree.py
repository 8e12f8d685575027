"""What a line says, as plain data."""

from dataclasses import dataclass

RQL_WORDS = {
    "COLLATEDATA": 3,
    "AGGREGATEDATAINVARIABLE": 4,
    "AGGREGATEDATAINTABLE": 4,
    "COLLATEDATAINTOINTERVALS": 3,
}
AGGREGATES = ("COUNT", "SUM", "MIN", "MAX")


@dataclass(frozen=True)
class Literal:
    value: object  # an int, or the bytes of a text


@dataclass(frozen=True)
class Col:
    table: object  # a name, or None where the column stands alone
    name: str


@dataclass(frozen=True)
class Current:
    """current_snapshot()"""


@dataclass(frozen=True)
class Step:
    sign: str
    left: object
    right: object


@dataclass(frozen=True)
class Aggregate:
    function: str
    argument: object  # None for COUNT(*)


@dataclass(frozen=True)
class Output:
    what: object
    name: object  # the name after AS, or None


@dataclass(frozen=True)
class Compare:
    sign: str
    left: object
    right: object


@dataclass(frozen=True)
class Logic:
    word: str  # AND, OR or NOT
    parts: tuple


@dataclass(frozen=True)
class Key:
    col: Col
    falling: bool


@dataclass(frozen=True)
class Select:
    distinct: bool
    outputs: object  # a tuple of Output, or None for *
    tables: tuple
    where: object
    group: object  # a tuple of Col, or None
    order: tuple
    limit: object


@dataclass(frozen=True)
class CreateTable:
    name: str
    columns: tuple  # pairs of name and INT or TEXT


@dataclass(frozen=True)
class CreateIndex:
    name: str
    table: str
    column: str


@dataclass(frozen=True)
class Insert:
    table: str
    tuples: tuple


@dataclass(frozen=True)
class Update:
    table: str
    sets: tuple
    where: object


@dataclass(frozen=True)
class Delete:
    table: str
    where: object


@dataclass(frozen=True)
class AsOf:
    snapshot: int
    select: Select


@dataclass(frozen=True)
class Commit:
    label: object  # None without a declaration


@dataclass(frozen=True)
class Rollback:
    pass


@dataclass(frozen=True)
class DropBelow:
    bound: int


@dataclass(frozen=True)
class Call:
    word: str
    arguments: tuple  # pairs of the text's bytes and the place of its opening quote
