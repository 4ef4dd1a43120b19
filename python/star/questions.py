"""What the core answers about a table and its plan."""
import ctypes
from typing import Any, Dict, Hashable, Iterable, List, Optional, Tuple

from . import _library as lib
from .answers import Choice, Detours, Exchange, Groups, Quote, Refused, Verdict, rows_of
from .columns import bits, marks_of, price_of, word
from .content import Content


class Questions(Content):
    """Questions, which leave a table as it is."""

    def check(self) -> Verdict:
        """Whether the plan is a least network, and the only one; if not, an exchange that saves.

        >>> yard = Table(4, [(1, 2, 5, 1), (2, 3, 3, 1), (3, 4, 5), (1, 4, 4, 1), (1, 3, 6)])
        >>> yard.check()
        Verdict(passed=True, total=12, least=12, only=False, exchange=None)
        """
        with self._lock:
            return _verdict(lib.check(self._at))

    def other(self) -> Verdict:
        """As check; where another network has the same total, with an exchange that gives it.

        >>> yard = Table(4, [(1, 2, 5, 1), (2, 3, 3, 1), (3, 4, 5), (1, 4, 4, 1), (1, 3, 6)])
        >>> yard.other().exchange
        Exchange(out=1, into=3, saving=0)
        """
        with self._lock:
            return _verdict(lib.other(self._at))

    def best(self) -> Verdict:
        """As check, with the exchange of two rows that saves most; least is what the plan could come
        down to by any change. Whether it is the only one is not asked.

        >>> yard = Table(4, [(1, 2, 5, 1), (2, 3, 3, 1), (3, 4, 5), (1, 4, 4), (1, 3, 6, 1)])
        >>> yard.strike(5); yard.plan = 1, 2, 3; yard.best().exchange
        Exchange(out=1, into=4, saving=1)
        """
        with self._lock:
            v = lib.best(self._at)
        if v.kind == lib.REFUSED:
            raise Refused(v.number, v.place)
        exchange = None if v.kind == lib.PASSED else Exchange(v.out, v.into, v.saving)
        return Verdict(exchange is None, v.total, v.least, None, exchange)

    def detours(self) -> Detours:
        """Beside each row the row it is best exchanged with: beside an unmarked row the dearest of
        its detour along the plan, beside a marked row the cheapest that could take its place. The
        plan is least exactly where no unmarked row is cheaper than the row beside it.

        >>> yard = Table(4, [(1, 2, 5, 1), (2, 3, 3, 1), (3, 4, 5, 1), (1, 4, 4), (1, 3, 6)])
        >>> yard.detours()
        Detours(total=13, dearest=((4, 1), (5, 1)), instead=((1, 4), (2, 4), (3, 4)))
        """
        numbers = lib.Numbers()
        with self._lock:
            a = lib.detours(self._at, numbers)
            if a.kind == lib.REFUSED:
                raise Refused(a.number, a.out)
            used, marks = self._used(), bytes(self._t.mark)
        beside = numbers[:used[-1]] if used else []
        dearest = tuple([(row, beside[row - 1]) for row in used if not marks[row - 1]])
        instead = tuple([(row, beside[row - 1] or None) for row in used if marks[row - 1]])
        return Detours(a.amount, dearest, instead)

    def groups(self) -> Groups:
        """The groups of junctions that the marked rows join, whatever is marked, and the marked rows
        that close a ring.

        >>> yard = Table(4, [(1, 2, 5, 1), (2, 3, 3, 1), (3, 4, 5), (1, 4, 4), (1, 3, 6, 1)])
        >>> yard.groups()
        Groups(groups=((1, 2, 3), (4,)), rings=(1, 2, 5))
        """
        first, rings = lib.Junctions(), lib.Column()
        with self._lock:
            a = lib.groups(self._at, first, rings)
        if a.kind == lib.REFUSED:
            raise Refused(a.number, a.out)
        joined: Dict[int, List[Hashable]] = {}
        for number, least in enumerate(first[:self.n], 1):
            joined.setdefault(least, []).append(self._name(number))
        return Groups(tuple(map(tuple, joined.values())), rows_of(bytes(rings)))

    def which(self, first: Iterable[int], second: Iterable[int]) -> Choice:
        """Which of two plans, given by their rows, costs less: 1, also where they cost the same, or
        2.

        >>> yard = Table(4, [(1, 2, 5), (2, 3, 3), (3, 4, 5), (1, 4, 4), (1, 3, 6)])
        >>> yard.which([1, 2, 3], [1, 2, 4])
        Choice(which=2, total=12)
        """
        marks = marks_of(first), marks_of(second)
        with self._lock:
            v = lib.which(self._at, *marks)
        if v.kind == lib.REFUSED:
            raise Refused(v.number, v.place)
        return Choice(v.which, v.total)

    def path(self, u: Hashable, v: Hashable) -> Tuple[int, ...]:
        """The rows of the plan between two junctions, from the first to the second.

        >>> yard = Table(4, [(1, 2, 5, 1), (2, 3, 3, 1), (3, 4, 5), (1, 4, 4, 1), (1, 3, 6)])
        >>> yard.path(4, 3)
        (4, 1, 2)
        """
        at, to = word(self._number(u)), word(self._number(v))
        with self._lock:
            if self._matrix is None:
                self._matrix = (ctypes.c_uint64 * (lib.COLUMN_WORDS * self.n))()
            a = lib.paths(self._at, at, self._matrix)
            if a.kind == lib.REFUSED:
                raise Refused(a.number, a.out)
            if not 1 <= to <= self.n:
                raise Refused(7)
            column = ctypes.string_at(ctypes.addressof(self._matrix) + 128 * (to - 1), 128)
            return self._walked(bits(column), at)

    def _walked(self, rows: List[int], at: int) -> Tuple[int, ...]:
        """The rows of a path in the order in which they are walked from a junction."""
        left, right = self._t.left, self._t.right
        ends = {row: (left[row - 1], right[row - 1]) for row in rows}
        met: Dict[int, int] = {}  # the exclusive or of a junction's rows: one, or two on the way
        for row, (u, v) in ends.items():
            met[u] = met.get(u, 0) ^ row
            met[v] = met.get(v, 0) ^ row
        order, row = [], 0
        for _ in rows:
            row ^= met[at]
            at = sum(ends[row]) - at
            order.append(row)
        return tuple(order)

    def quote(self, row: int, price: int) -> Quote:
        """The least total today, and with another price of one row.

        >>> yard = Table(4, [(1, 2, 5), (2, 3, 3), (3, 4, 5), (1, 4, 4), (1, 3, 6)])
        >>> yard.quote(4, 9)
        Quote(before=12, after=13)
        """
        with self._lock:
            q = lib.quote(self._at, word(row), price_of(price))
        if q.kind == lib.REFUSED:
            raise Refused(q.number, q.place)
        return Quote(q.before, q.after)

    def breaking(self, row: int) -> Optional[int]:
        """The price above which a row is in no least network; None where it is in every network.

        >>> yard = Table(4, [(1, 2, 5), (2, 3, 3), (3, 4, 5), (1, 4, 4), (1, 3, 6)])
        >>> yard.breaking(4)
        5
        """
        with self._lock:
            a = lib.breaking(self._at, word(row))
        if a.kind == lib.REFUSED:
            raise Refused(a.number, a.out)
        return a.amount if a.kind == lib.PASSED else None

    def total(self) -> int:
        """The total of the marked rows, a network or not.

        >>> t = Table(3, [(1, 2, 7), (2, 3, 4)]); t.mark(2); t.total()
        4
        """
        with self._lock:
            a = lib.total(self._at)
        if a.kind == lib.REFUSED:
            raise Refused(a.number, a.out)
        return int(a.amount)

    def digs(self, plan: bool = False) -> str:
        """The dig list of a least network: a line a row, and the total. With plan that of the
        marked rows, least or not; refused (Refused) where they are no network.

        >>> print(Table(2, [(1, 2, 7)]).digs(), end="")
        1 1 2 7
        Total 7
        """
        text = ctypes.create_string_buffer(lib.MAX_LIST)
        with self._lock:
            a = (lib.plan_digs if plan else lib.digs)(self._at, text)
        if a.kind == lib.REFUSED:
            raise Refused(a.number, a.out)
        return ctypes.string_at(text, a.amount).decode()


def _verdict(v: Any) -> Verdict:
    if v.kind == lib.PASSED:
        exchange = Exchange(v.out, v.into, 0) if v.out else None
        return Verdict(True, v.total, v.least, v.only == 1, exchange)
    if v.kind == lib.REFUSED:
        raise Refused(v.number, v.place)
    return Verdict(False, v.total, v.least, None, Exchange(v.out, v.into, v.saving))
