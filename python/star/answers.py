"""What is answered: small classes that do not change, and the exception of a refusal."""
from itertools import compress
from typing import Any, Hashable, NamedTuple, Optional, Tuple, Type

from . import _library


class Refused(ValueError):
    """The core refuses a table, a plan or what was asked.

    number -- which refusal, as in the header; place -- the row, junction or byte, 0 for none;
    words -- the refusal in words
    """

    def __init__(self, number: int, place: int = 0, words: str = "") -> None:
        self.number = number
        self.place = place
        self.words = words or _library.refusal_text(number).decode()
        at = " at %d" % place if place else ""
        super().__init__("refused %d%s: %s" % (number, at, self.words))

    def __reduce__(self) -> Tuple[Type["Refused"], Tuple[int, int, str]]:
        return Refused, (self.number, self.place, self.words)


class Unfit(ValueError):
    """What is handed in cannot be said as a table: a price that is not whole in its unit, a trench
    from a junction to itself, a second one between two junctions, a field that is not there.

    place -- the row of the input, counted from 1; 0 where it is no row
    """

    def __init__(self, place: int, words: str) -> None:
        self.place = place
        self.words = words
        super().__init__("row %d: %s" % (place, words) if place else words)

    def __reduce__(self) -> Tuple[Type["Unfit"], Tuple[int, str]]:
        return Unfit, (self.place, self.words)


class Exchange(NamedTuple):
    """Take out one row, put in another, and save."""
    out: int
    into: int
    saving: int


class Verdict(NamedTuple):
    """What is said of a plan. It counts as true where the plan passes. only is None where it was not
    asked."""
    passed: bool
    total: int
    least: int
    only: Optional[bool]
    exchange: Optional[Exchange]

    def __bool__(self) -> bool:
        return self.passed


_NUMBERS = range(1, _library.MAX_ROWS + 1)


def rows_of(marks: bytes) -> Tuple[int, ...]:
    """The numbers of the rows that are marked."""
    return tuple(compress(_NUMBERS, marks[:marks.rfind(1) + 1]))


def _shown(answer: Any) -> str:
    """An answer with the numbers of its rows in place of its column of marks."""
    fields = answer._asdict()
    fields["rows"] = rows_of(fields.pop("marks"))
    return "%s(%s)" % (type(answer).__name__, ", ".join("%s=%r" % f for f in fields.items()))


class Plan(NamedTuple):
    """A network: its total, and a byte for each row, 1 where it has the row."""
    total: int
    marks: bytes

    def __repr__(self) -> str:
        return _shown(self)

    @property
    def rows(self) -> Tuple[int, ...]:
        """The numbers of its rows."""
        return rows_of(self.marks)


class Step(NamedTuple):
    """A step of a mend: 'dropped', 'added' or 'exchanged', with its rows."""
    kind: str
    out: Optional[int]
    into: Optional[int]


class Mended(NamedTuple):
    """A least network made from a plan, and the steps."""
    total: int
    marks: bytes
    steps: Tuple[Step, ...]

    def __repr__(self) -> str:
        return _shown(self)

    @property
    def rows(self) -> Tuple[int, ...]:
        """The numbers of its rows."""
        return rows_of(self.marks)


class Districts(NamedTuple):
    """A least network made from the least rows of each run of rows, and these."""
    total: int
    marks: bytes
    forests: Tuple[Tuple[int, ...], ...]

    def __repr__(self) -> str:
        return _shown(self)

    @property
    def rows(self) -> Tuple[int, ...]:
        """The numbers of its rows."""
        return rows_of(self.marks)


class Quote(NamedTuple):
    """The least total today, and at a row's new price."""
    before: int
    after: int

    @property
    def change(self) -> int:
        """What the new price changes."""
        return self.after - self.before


class Groups(NamedTuple):
    """What the marked rows join: the junctions of each group, the one with the smallest junction
    first, and the marked rows that close a ring."""
    groups: Tuple[Tuple[Hashable, ...], ...]
    rings: Tuple[int, ...]

    @property
    def network(self) -> bool:
        """Whether the marked rows are a network: one group, and no ring."""
        return len(self.groups) == 1 and not self.rings


class Detours(NamedTuple):
    """The best exchange of each row, as pairs: beside each unmarked row the dearest row of the way
    between its ends along the plan, beside each marked row the cheapest that could take its place,
    None where there is none; and the plan's total."""
    total: int
    dearest: Tuple[Tuple[int, int], ...]
    instead: Tuple[Tuple[int, Optional[int]], ...]


class Choice(NamedTuple):
    """Which of two plans costs less, 1 or 2, and its total."""
    which: int
    total: int


class Row(NamedTuple):
    """A row of a table: its number, the junctions it joins, its price, whether it is marked."""
    number: int
    left: object
    right: object
    price: int
    marked: bool
