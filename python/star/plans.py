"""Plans that the core makes, which the table has afterwards."""
import ctypes
import struct
from bisect import bisect_right
from typing import Hashable, List, Sequence

from . import _library as lib
from .answers import Districts, Mended, Plan, Refused, Step, rows_of
from .columns import number_of, word
from .content import Content

_KINDS = {1: "dropped", 2: "added", 3: "exchanged"}


class Plans(Content):
    """Calls that mark a network."""

    def build(self) -> Plan:
        """Marks a least network.

        >>> yard = Table(4, [(1, 2, 5), (2, 3, 3), (3, 4, 5), (1, 4, 4), (1, 3, 6)])
        >>> yard.build().total, yard.plan
        (12, (1, 2, 4))
        """
        with self._lock:
            v = lib.build(self._at)
            if v.kind == lib.REFUSED:
                raise Refused(v.number, v.place)
            return Plan(v.total, bytes(self._t.mark))

    def mend(self) -> Mended:
        """Turns the plan, whatever is marked, into a least network, and tells each step.

        >>> yard = Table(4, [(1, 2, 5, 1), (2, 3, 3, 1), (3, 4, 5), (1, 4, 4), (1, 3, 6, 1)])
        >>> yard.mend().steps[0]
        Step(kind='dropped', out=5, into=None)
        """
        records = lib.Records()
        with self._lock:
            v = lib.mend(self._at, records)
            if v.kind == lib.REFUSED:
                raise Refused(v.number, v.place)
            marks = bytes(self._t.mark)
        told = struct.iter_unpack("=3I", ctypes.string_at(records, 12 * v.steps))
        steps = tuple(Step(_KINDS[kind], out or None, into or None) for kind, out, into in told)
        return Mended(v.total, marks, steps)

    def outlets(self, junction: Hashable, count: int) -> Plan:
        """Marks a network that is least among those with exactly count rows at a junction.

        >>> yard = Table(4, [(1, 2, 5), (2, 3, 3), (3, 4, 5), (1, 4, 4), (1, 3, 6)])
        >>> yard.outlets(1, 3).rows
        (1, 4, 5)
        """
        at, rows = word(self._number(junction)), word(count, "a number of rows")
        with self._lock:
            v = lib.outlets(self._at, at, rows)
            if v.kind == lib.REFUSED:
                raise Refused(v.number, v.place)
            return Plan(v.total, bytes(self._t.mark))

    def districts(self, ends: Sequence[int]) -> Districts:
        """Marks a least network made from the least rows of each district alone. A district is a
        run of rows; ends has the last row of each, and closes with the table's last row, which may
        be struck.

        >>> yard = Table(4, [(1, 2, 5), (2, 3, 3), (3, 4, 5), (1, 4, 4), (1, 3, 6)])
        >>> yard.districts([2, 5])
        Districts(total=12, forests=((1, 2), (3, 4)), rows=(1, 2, 4))
        """
        given, forests = [word(end) for end in ends], lib.Column()
        with self._lock:
            asked = struct.pack("=%dI" % len(given), *self._closed(given))
            v = lib.districts(self._at, asked, len(given), forests)
            if v.kind == lib.REFUSED:
                raise Refused(v.number, v.place)
            marks = bytes(self._t.mark)
        chosen, forests_of, at = rows_of(bytes(forests)), [], 0
        for end in given:
            below = bisect_right(chosen, end)
            forests_of.append(chosen[at:below])
            at = below
        return Districts(v.total, marks, tuple(forests_of))

    def _closed(self, ends: List[int]) -> List[int]:
        """The ends as the library takes them: one at the table's last row is that of all 1,024."""
        if not ends:
            return ends
        last = number_of(bytes(self._t.in_use)).bit_length()
        entered = self._entered() if ends[-1] > last else last
        return ends[:-1] + [lib.MAX_ROWS] if last <= ends[-1] <= entered else ends
