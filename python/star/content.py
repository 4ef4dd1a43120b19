"""What stands in a table: junctions, rows, and the marks that are its plan."""
import ctypes
import struct
from fractions import Fraction
from threading import RLock
from typing import Any, Dict, Hashable, Iterable, List, Optional, Sequence, Tuple, TypeVar, Union

from . import _library as lib
from .answers import Refused, Row, rows_of
from .columns import (LEFT, MARK, RIGHT, WEIGHT, bits, check_junctions, end, marks_of, number_of,
                      price_of, whole, word)

Self = TypeVar("Self", bound="Content")
Line = Tuple[Tuple[float, ...], ...]


class Content:
    """The columns of a table, and the names of its junctions. A call takes the table's lock, so
    that one thread at a time is in its columns."""

    def __init__(self, n: Union[int, Iterable[Hashable]], rows: Iterable[Sequence[Any]] = ()
                 ) -> None:
        self._names: Optional[Tuple[Hashable, ...]] = None
        self._numbers: Dict[Hashable, int] = {}
        self._places: Dict[int, Tuple[float, ...]] = {}
        self._lines: Dict[int, Line] = {}
        self.unit: Fraction = Fraction(1)
        self.report: Optional[object] = None
        count = self._counted(n)
        check_junctions(count)
        self._lock = RLock()
        self._matrix: Optional["ctypes.Array[ctypes.c_uint64]"] = None
        self._t = lib.CTable()
        self._at = ctypes.byref(self._t)
        self._t.n = count
        self._fill(list(rows))

    def _counted(self, n: Union[int, Iterable[Hashable]]) -> int:
        """How many junctions there are; keeps their names where n has names."""
        if isinstance(n, (str, bytes)):
            raise TypeError("%r is neither a number of junctions nor a list of their names; "
                            "Table.read reads a file" % (n,))
        if not hasattr(n, "__iter__"):
            return whole(n, "the number of junctions")
        self._names = tuple(n)  # type: ignore[arg-type]
        self._numbers = {name: k for k, name in enumerate(self._names, 1)}
        if len(self._numbers) != len(self._names):
            raise ValueError("two junctions have one name")
        return len(self._names)

    def _take_names(self, names: List[str]) -> None:
        """Names of the first junctions; those that have none are named by their numbers."""
        rest = range(len(names) + 1, self.n + 1)
        self._names = (*names, *rest)
        self._numbers = {name: k for k, name in enumerate(self._names, 1)}

    def _fill(self, rows: List[Sequence[Any]]) -> None:
        m = len(rows)
        if m > lib.MAX_ROWS:
            raise Refused(2, 0, "%d rows were found, and at most 1024 are taken" % m)
        left, right, prices, marks = bytearray(m), bytearray(m), [0] * m, bytearray(m)
        for k, row in enumerate(rows):
            try:
                left[k], right[k] = end(self._number(row[0])), end(self._number(row[1]))
                prices[k], marks[k] = price_of(row[2]), len(row) > 3 and bool(row[3])
            except IndexError:
                raise ValueError("row %d has %d values; a row is left, right, price, and perhaps "
                                 "its mark" % (k + 1, len(row))) from None
            except (KeyError, TypeError, ValueError) as fault:
                raise type(fault)("row %d: %s" % (k + 1, fault.args[0])) from None
        at = ctypes.addressof(self._t)
        ctypes.memmove(at + LEFT, bytes(left), m)
        ctypes.memmove(at + RIGHT, bytes(right), m)
        ctypes.memmove(at + WEIGHT, struct.pack("<%di" % m, *prices), 4 * m)
        ctypes.memmove(at + MARK, bytes(marks), m)
        for k in range(0, m, 64):
            self._t.in_use[k // 64] = (1 << min(64, m - k)) - 1

    def _number(self, junction: Hashable) -> int:
        """A junction's number by its name."""
        if self._names is None:
            return junction if type(junction) is int else whole(junction, "a junction")
        if junction not in self._numbers:
            raise KeyError("no junction is named %r" % (junction,))
        return self._numbers[junction]

    def _name(self, number: int) -> Hashable:
        if self._names is None or not 1 <= number <= len(self._names):
            return number
        return self._names[number - 1]

    @property
    def n(self) -> int:
        """The number of junctions."""
        return int(self._t.n)

    @property
    def junctions(self) -> Tuple[Hashable, ...]:
        """The names of the junctions, or their numbers."""
        return self._names[:self.n] if self._names is not None else tuple(range(1, self.n + 1))

    @property
    def places(self) -> Dict[Hashable, Tuple[float, ...]]:
        """The coordinates of the junctions that have some."""
        return {self._name(k): place for k, place in self._places.items()}

    def _used(self) -> List[int]:
        return bits(bytes(self._t.in_use))

    def _entered(self) -> int:
        """The last row that is in use or was struck."""
        last = number_of(bytes(self._t.in_use)).bit_length()
        return max(last, len(bytes(self._t.left).rstrip(b"\0")))

    @property
    def rows(self) -> Tuple[Row, ...]:
        """The rows in use, from the top."""
        t, name = self._t, self._name
        with self._lock:
            used = self._used()
            left, right, mark = bytes(t.left), bytes(t.right), bytes(t.mark)
            price = struct.unpack_from("<%di" % (used[-1] if used else 0), t.weight)
        return tuple([Row(k, name(left[k - 1]), name(right[k - 1]), price[k - 1], mark[k - 1] == 1)
                      for k in used])

    @property
    def plan(self) -> Tuple[int, ...]:
        """The numbers of the marked rows; set it to mark others."""
        return rows_of(bytes(self._t.mark))

    @plan.setter
    def plan(self, rows: Iterable[int]) -> None:
        if not hasattr(rows, "__iter__"):
            raise TypeError("a plan is a list of rows, not %r" % (rows,))
        chosen = tuple(rows)
        with self._lock:
            marks = marks_of(chosen, number_of(bytes(self._t.in_use)))
            ctypes.memmove(ctypes.addressof(self._t) + MARK, marks, lib.MAX_ROWS)

    def mark(self, *rows: int, on: bool = True) -> None:
        """Marks rows, or takes their marks away.

        >>> t = Table(2, [(1, 2, 7)]); t.mark(1); t.plan
        (1,)
        """
        with self._lock:
            for row in self._in_use(rows):
                lib.mark(self._at, row, bool(on))

    def _in_use(self, rows: Iterable[int], once: bool = False) -> List[int]:
        """The rows, all of them in use, or a refusal before any of them is changed."""
        used, found = number_of(bytes(self._t.in_use)) << 1, []
        for row in rows:
            found.append(word(row))
            if found[-1] > lib.MAX_ROWS or not used >> found[-1] & 1:
                raise Refused(18, 0, "row %d is not in use" % row)
            if once:
                used ^= 1 << found[-1]
        return found

    def __len__(self) -> int:
        return len(self._used())

    def __repr__(self) -> str:
        counts = self.n, len(self), len(self.plan)
        return "<star.Table: %d junctions, %d rows, %d marked>" % counts

    def __eq__(self, other: object) -> bool:
        if not isinstance(other, Content):
            return NotImplemented
        return (self.junctions, self.rows, self.unit, self._places, self._lines) == (
            other.junctions, other.rows, other.unit, other._places, other._lines)

    __hash__ = None  # type: ignore[assignment]

    def copy(self: Self) -> Self:
        """The same table once more.

        >>> t = Table(2, [(1, 2, 7)]); u = t.copy(); u.mark(1); t.plan, t == u
        ((), False)
        """
        new = type(self)(self._names if self._names is not None else self.n)
        with self._lock:
            ctypes.pointer(new._t)[0] = self._t
            new._places, new._lines = dict(self._places), dict(self._lines)
            new.unit, new.report = self.unit, self.report
        return new
