"""Numbers, marks and columns as the library takes them."""
from operator import index
from typing import Iterable, List, Tuple

from . import _library as lib
from .answers import Refused

_TOO_MANY = ("%d junctions were found, and at most 255 are taken: cut the area into districts of "
             "at most 255 junctions each and plan one after the other")
LEFT, RIGHT, WEIGHT, MARK = (getattr(lib.CTable, name).offset
                             for name in ("left", "right", "weight", "mark"))


def whole(value: object, what: str) -> int:
    """An int, also from what numpy has; neither a bool nor a number with decimals counts as one."""
    if not isinstance(value, bool):
        try:
            return index(value)  # type: ignore[arg-type]
        except TypeError:
            pass
    raise TypeError("%s is a whole number, not %r" % (what, value))


def check_junctions(n: int) -> None:
    """Refuses a number of junctions that no table has."""
    if not 1 <= n <= lib.MAX_JUNCTIONS:
        raise Refused(1, 0, _TOO_MANY % n if n > 1 else "")


def price_of(price: int) -> int:
    """A price that four bytes hold, or ValueError."""
    if type(price) is not int:
        price = whole(price, "a price")
    if not lib.MIN_PRICE <= price <= lib.MAX_PRICE:
        raise ValueError("%d is not a price, a whole number from -2147483648 to 2147483647" % price)
    return price


def word(number: int, what: str = "a row") -> int:
    """A number as 32 bits hold it; one that they do not hold is none that there is."""
    if type(number) is not int:
        number = whole(number, what)
    return number if 0 <= number < 2**32 else 2**32 - 1


def end(number: int) -> int:
    """A junction as a byte holds it; one that it does not hold is 0, which is refused."""
    return number if 0 <= number <= 255 else 0


def number_of(words: bytes) -> int:
    """The number whose bits are those of the words, a bit a row."""
    return int.from_bytes(words.rstrip(b"\0"), "little")


def bits(words: bytes) -> List[int]:
    """The rows whose bits are 1, from the top."""
    left, rows = number_of(words), []
    while left:
        lowest = left & -left
        rows.append(lowest.bit_length())
        left ^= lowest
    return rows


def marks_of(rows: Iterable[int], used: int = (1 << lib.MAX_ROWS) - 1) -> bytes:
    """A column of marks; the bits of used say which rows may be marked."""
    marks, chosen = bytearray(lib.MAX_ROWS), tuple(rows)
    if not used & used + 1 and _between(chosen, used.bit_length()):
        for row in chosen:
            marks[row - 1] = 1
        return bytes(marks)
    for row in chosen:
        if type(row) is not int:
            row = whole(row, "a row")
        if not (row > 0 and used >> row - 1 & 1):
            raise Refused(18, 0, "row %d is not in use" % row)
        marks[row - 1] = 1
    return bytes(marks)


def _between(rows: Tuple[int, ...], last: int) -> bool:
    """Whether all are numbers from 1 to the last, where each of these rows is in use."""
    return set(map(type, rows)) == {int} and min(rows) > 0 and max(rows) <= last
