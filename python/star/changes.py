"""Streets that are blocked, and new ones."""
from typing import Dict, Hashable

from . import _library as lib
from .answers import Refused
from .columns import end, price_of, word
from .content import Content


class Changes(Content):
    """Calls that change which rows a table has."""

    def add(self, left: Hashable, right: Hashable, price: int) -> int:
        """Enters a row after the last one in use, unmarked, and gives its number.

        >>> t = Table(3, [(1, 2, 7)]); t.add(2, 3, 4)
        2
        """
        u, v = end(self._number(left)), end(self._number(right))
        with self._lock:
            a = lib.add(self._at, u, v, price_of(price))
            if a.kind == lib.REFUSED:
                raise Refused(a.number, a.out)
            if self._lines:
                self._carry_lines()
        return int(a.amount)

    def strike(self, *rows: int) -> None:
        """Takes rows out of use: they keep their numbers and are left out of everything.

        >>> t = Table(3, [(1, 2, 7), (2, 3, 4), (1, 3, 9)]); t.strike(2); len(t), t.build().total
        (2, 16)
        """
        with self._lock:
            for row in self._in_use(rows, once=True):
                lib.strike(self._at, row)
                self._lines.pop(row, None)

    def restore(self, row: int) -> None:
        """Puts a struck row back into use, unmarked. After a merge, and after an add that packed,
        other rows stand in its place.

        >>> t = Table(3, [(1, 2, 7), (2, 3, 4), (1, 3, 9)]); t.strike(2); t.restore(2)
        >>> t.build().total
        11
        """
        with self._lock:
            a = lib.restore(self._at, word(row))
        if a.kind == lib.REFUSED:
            raise Refused(a.number, a.out)

    def merge(self) -> Dict[int, int]:
        """Packs the rows in use to the top, and says where each one went. The plan moves with them.

        >>> t = Table(3, [(1, 2, 7), (2, 3, 4), (1, 3, 9)]); t.strike(2); t.merge()
        {1: 1, 3: 2}
        """
        with self._lock:
            used = self._used()
            lib.merge(self._at)
            if self._lines:
                self._carry_lines()
            numbers = self._t.numbers
            return {k: numbers[k - 1] for k in used}

    def _carry_lines(self) -> None:
        """Moves the courses of rows to their rows' new numbers."""
        numbers = self._t.numbers
        self._lines = {numbers[k - 1]: v for k, v in self._lines.items() if numbers[k - 1]}
