"""Rows as street data has them, with names, decimals and parallel trenches, made into a table."""
import re
from fractions import Fraction
from typing import (Any, Dict, FrozenSet, Hashable, Iterable, List, NamedTuple, Optional, Sequence,
                    Tuple, Union)

from . import _library as lib
from .answers import Unfit
from .table import Table


class Dropped(NamedTuple):
    """A row of the input that the table has not, and the one that took its place, 0 for none."""
    place: int
    left: Hashable
    right: Hashable
    price: object
    kept: int


class Rounded(NamedTuple):
    """A price of the input that is not whole in its unit, and the one that was taken."""
    place: int
    given: object
    taken: Fraction


class Report(NamedTuple):
    """What was dropped and rounded on the way into a table. Places count the input from 1."""
    dropped: Tuple[Dropped, ...]
    rounded: Tuple[Rounded, ...]

    def __str__(self) -> str:
        lines = ["row %d, %s to %s at %s, was dropped: %s" % (
            d.place, d.left, d.right, d.price,
            "row %d joins the same junctions and costs no more" % d.kept if d.kept
            else "it joins a junction to itself") for d in self.dropped]
        lines += ["row %d: the price %s was taken as %s" % (r.place, r.given, number(r.taken))
                  for r in self.rounded]
        return "\n".join(lines) or "nothing was dropped or rounded"


def number(value: Fraction) -> Union[int, float]:
    """A number as it is written: whole, or with its decimals."""
    return int(value) if value.denominator == 1 else float(value)


_FAR = re.compile(r"[eE][-+]?0*[1-9][0-9]{3}")  # a power of ten that takes memory to write out


def exact(value: object) -> Fraction:
    """The number that is written: 12.35 is 1235 hundredths, whatever its bits are."""
    if isinstance(value, (int, Fraction)) and not isinstance(value, bool):
        return Fraction(value)
    text = str(value).strip()
    if len(text) > 100 or _FAR.search(text):
        raise ValueError("%.20s.. is no price" % text)
    return Fraction(text)


def mark_of(place: int, mark: object) -> bool:
    """A mark: 0 or 1, or what is equal to them; where there is none, 0."""
    if mark is None:
        return False
    if mark not in (0, 1):
        raise Unfit(place, "its mark is %r, and is to be True or False" % (mark,))
    return bool(mark)


def _parts(place: int, row: Sequence[Any]) -> Tuple[Hashable, Hashable, object, bool]:
    """A row's junctions, price and mark."""
    try:
        left, right, given = row[0], row[1], row[2]
        mark = row[3] if len(row) > 3 else None
    except (IndexError, KeyError, TypeError):
        raise Unfit(place, "%.60r is not left, right, price, and perhaps a mark" % (row,)) from None
    for name in (left, right):
        try:
            hash(name)
            missing = name is None or name != name
        except TypeError:
            raise Unfit(place, "%.60r is no junction" % (name,)) from None
        if missing:
            raise Unfit(place, "one of its junctions is missing")
    return left, right, given, mark_of(place, mark)


class _Rows:
    """Takes rows one after the other."""

    def __init__(self, unit: object, parallel: str, loops: str, rounding: str) -> None:
        for word, known in ((parallel, ("refuse", "cheapest")), (loops, ("refuse", "drop")),
                            (rounding, ("refuse", "nearest"))):
            if word not in known:
                raise ValueError("%r is none of %s" % (word, ", ".join(known)))
        self.unit = exact(unit)
        if self.unit <= 0:
            raise ValueError("a unit is above 0")
        self.parallel, self.loops, self.rounding = parallel, loops, rounding
        self.rows: List[List[Any]] = []              # left, right, price, marked, place, given
        self.at: Dict[FrozenSet[Hashable], int] = {}  # the index of the row between two junctions
        self.named: Dict[Hashable, None] = {}        # the junctions, as they come
        self.dropped: List[Dropped] = []
        self.rounded: List[Rounded] = []

    def price(self, place: int, given: object) -> int:
        try:
            units = exact(given) / self.unit
        except (ValueError, ZeroDivisionError):
            raise Unfit(place, "%.60r is not a price" % (given,)) from None
        whole = round(units)
        if whole != units:
            if self.rounding == "refuse":
                raise Unfit(place, "the price %s is not a whole number of %s; give a smaller unit, "
                            "or rounding='nearest'" % (given, number(self.unit)))
            self.rounded.append(Rounded(place, given, whole * self.unit))
        if not lib.MIN_PRICE <= whole <= lib.MAX_PRICE:
            raise Unfit(place, "the price %s is more than 32 bits hold in units of %s"
                        % (given, number(self.unit)))
        return whole

    def take(self, place: int, left: Hashable, right: Hashable, given: object, mark: bool) -> None:
        self.named.setdefault(left)
        self.named.setdefault(right)
        if left == right:
            if self.loops == "refuse":
                raise Unfit(place, "it joins %r to itself; loops='drop' leaves it out" % (left,))
            self.dropped.append(Dropped(place, left, right, given, 0))
            return
        new = [left, right, self.price(place, given), mark, place, given]
        ends = frozenset((left, right))
        if ends not in self.at:
            self.at[ends] = len(self.rows)
            self.rows.append(new)
            return
        old = self.rows[self.at[ends]]
        if self.parallel == "refuse":
            raise Unfit(place, "row %d joins the same junctions; parallel='cheapest' keeps the "
                        "cheaper of the two" % old[4])
        kept, gone = (new, old) if new[2] < old[2] else (old, new)
        self.dropped.append(Dropped(gone[4], gone[0], gone[1], gone[5], kept[4]))
        self.rows[self.at[ends]] = kept

    def report(self) -> Report:
        places = {row[4] for row in self.rows}
        return Report(tuple(self.dropped), tuple(r for r in self.rounded if r.place in places))


def from_rows(rows: Iterable[Sequence[Any]], *, junctions: Optional[Iterable[Hashable]] = None,
              unit: object = 1, parallel: str = "refuse", loops: str = "refuse",
              rounding: str = "refuse") -> Table:
    """A table from rows (left, right, price) or (left, right, price, marked), the junctions named
    by any hashable values.

    junctions -- all names, in the order that is wanted; else those of the rows, as they come
    unit      -- what a price is counted in: 0.01 for prices with cents
    parallel  -- 'cheapest' keeps the cheapest of the rows between two junctions
    loops     -- 'drop' leaves out rows from a junction to itself
    rounding  -- 'nearest' rounds prices that are not whole in the unit, half to even

    What was dropped and rounded stands in the table's report. Without these words it is refused, as
    Unfit.

    >>> streets = [("mill", "bridge", 12.35), ("bridge", "mill", 12.30), ("mill", "lock", 7)]
    >>> t = Table.from_rows(streets, parallel="cheapest", unit=0.01)
    >>> [row.price for row in t.rows], t.junctions
    ([1230, 700], ('mill', 'bridge', 'lock'))
    >>> print(t.report)
    row 1, mill to bridge at 12.35, was dropped: row 2 joins the same junctions and costs no more
    """
    taken = _Rows(unit, parallel, loops, rounding)
    for place, row in enumerate(rows, 1):
        taken.take(place, *_parts(place, row))
    names = tuple(taken.named if junctions is None else junctions)
    table = Table(names, [row[:4] for row in taken.rows])
    table.unit = taken.unit
    table.report = taken.report()
    return table
