"""Tables from and to files: the planner's table and STP texts by the core's readers, CSV,
GeoJSON."""
import ctypes
import os
import re
import struct
from itertools import accumulate
from typing import Any, Callable, Dict, List, Union

from . import _library as lib
from .answers import Refused, Unfit
from .columns import check_junctions
from .content import Content
from .formats import from_csv, to_csv
from .geojson import from_geojson, to_geojson
from .table import Table

Path = Union[str, "os.PathLike[str]"]
_READERS: Dict[str, Callable[..., Table]] = {
    ".csv": from_csv, ".tsv": from_csv, ".geojson": from_geojson, ".json": from_geojson}
_MOST = 1 << 28  # the bytes of a CSV or GeoJSON file; courses of streets are long
LAYOUT = {12, *range(20, 27)}  # the refusals of a text whose lines cannot stand
_WRITERS = {".csv": to_csv, ".geojson": to_geojson, ".json": to_geojson}


def _suffix(path: Path) -> str:
    return os.path.splitext(os.fspath(path))[1].lower()


def _line(data: bytes, place: int) -> str:
    """The line of a place in a text, as it is told."""
    count = lib.line_of(data, len(data), place)
    lines = re.split(rb"\r\n|\r|\n", data[:place + 1000])
    line = lines[min(count, len(lines)) - 1].decode(errors="backslashreplace")
    return "line %d: %.60r" % (count, line)


def _refused(number: int, place: int, data: bytes, most: int) -> Refused:
    """The refusal of a text, with the line that cannot stand."""
    if number not in LAYOUT and not (number == 2 and place):
        return Refused(number, place)
    if len(data) > most:
        return Refused(number, place, "the text is longer than %d bytes" % most)
    if number == 12:
        words = "the text breaks the layout of its kind of file"
    else:
        words = lib.refusal_text(number).decode()
    return Refused(number, place, "%s; %s" % (words, _line(data, place)))


def bytes_of(text: Union[str, bytes]) -> bytes:
    if not isinstance(text, (str, bytes, bytearray, memoryview)):
        raise TypeError("a table's text is str or bytes, not %r" % (text,))
    if not isinstance(text, str):
        return bytes(text)
    try:
        return text.encode("utf-8", "surrogateescape")
    except UnicodeEncodeError:
        return text.encode("utf-8", "surrogatepass")


def from_text(text: Union[str, bytes]) -> Table:
    """A table from the text of a planner's table or of an STP file. Names of junctions are kept.

    >>> Table.from_text("1 2 5 1\\n2 3 4 0\\n").plan
    (1,)
    >>> Table.from_text("mill lock 5\\nlock bridge 7\\n").junctions
    ('mill', 'lock', 'bridge')
    """
    data = bytes_of(text)
    if not is_stp(data):
        return from_table(data)
    table = Table(1)
    i = lib.read(table._at, data, len(data))
    if i.kind == lib.REFUSED:
        raise _refused(i.number, i.place, data, lib.MAX_READ)
    return table


def from_table(data: bytes) -> Table:
    """A table from the text of a planner's table, by the core's reader."""
    table = Table(1)
    begun, ended, places, answer = lib.Names(), lib.Names(), lib.Numbers(), lib.Answer()
    t, columns = table._t, []
    for column in (t.in_use, t.left, t.right, t.weight, t.mark, begun, ended, places):
        columns += [column, len(column)]
    lib.read_table(data, len(data), *columns, answer, len(answer))
    found = lib.read_file(answer)
    if found.kind == lib.REFUSED:
        raise _refused(found.number, found.place, data, lib.MAX_FILE)
    check_junctions(found.n)
    t.n = found.n
    if found.names:
        table._take_names([data[begun[k]:ended[k]].decode("utf-8", "surrogateescape")
                           for k in range(found.names)])
    return table


def is_stp(data: bytes) -> bool:
    """Whether a text is one of STP, by its first word."""
    return re.match(rb"(\xef\xbb\xbf)?\s*33D32945(\s|$)", data, re.IGNORECASE) is not None


def to_text(table: Content) -> str:
    """The planner's table, as the console reads it, written by the core: junctions by their names
    where the table has names that such a file can have, else by their numbers. Fields are parted by
    blanks, or by semicolons where a name holds what parts fields.

    >>> print(Table(3, [(1, 2, 5, 1), (2, 3, 4)]).to_text(), end="")
    junctions 3
    1 2 5 1
    2 3 4 0
    >>> print(Table(["mill", "old lock"], [("mill", "old lock", 5)]).to_text(), end="")
    left;right;price;mark
    junctions;2
    mill;old lock;5;0
    """
    names = _names(table)
    with table._lock:
        written = _written(table, names, 32)
        if names and isinstance(written, Refused):
            written = _written(table, names, 59)
        if names and isinstance(written, Refused):
            written = _written(table, [], 32)
    if isinstance(written, Refused):
        raise written
    return written.decode("utf-8", "surrogateescape")


def _names(table: Content) -> List[bytes]:
    """The names of the first junctions; none where one is no text, or where one behind them has a
    name that is not its number."""
    given = table._names
    if given is None:
        return []
    count = next((k for k, name in enumerate(given) if not isinstance(name, str)), len(given))
    if any(name != k for k, name in enumerate(given[count:], count + 1)):
        return []
    return [bytes_of(str(name)) for name in given[:count]]


def _written(table: Content, names: List[bytes], separator: int) -> Union[bytes, Refused]:
    """The text of a table with a byte between fields, or its refusal: the rows down to the last that
    is in use or struck."""
    t, m, answer, longest = table._t, table._entered(), lib.Answer(), 3
    begun = ended = None
    if names:
        places = [0, *accumulate(map(len, names))]
        begun, ended = lib.Names(*places[:-1]), lib.Names(*places[1:])
        longest = max(3, max(map(len, names)))
    text, count = b"".join(names), len(names)
    room = ctypes.create_string_buffer(43 + lib.MAX_ROWS * (23 + 2 * longest))
    lib.write_table(t.n, t.in_use, lib.COLUMN_WORDS, t.left, m, t.right, m, t.weight, 4 * m, t.mark,
                    m, text, len(text), begun, count, ended, count, separator, room, len(room),
                    answer, len(answer))
    kind, number, amount = struct.unpack("<2B6xQ", answer)
    return ctypes.string_at(room, amount) if kind == lib.PASSED else Refused(number, amount)


def content(path: Path) -> bytes:
    """The bytes of a file, no more than are taken."""
    most = _MOST if _suffix(path) in _READERS else lib.MAX_FILE
    with open(path, "rb") as file:
        return file.read(most + 1)


def table_of(path: Path, data: bytes, **how: Any) -> Table:
    """The table in the bytes of a file."""
    reader = _READERS.get(_suffix(path))
    if how and not reader:
        raise TypeError("a planner's table and an STP text are read as they are")
    if not reader:
        return from_text(data)
    if len(data) > _MOST:
        raise Unfit(0, "the file has more than %d bytes" % _MOST)
    try:
        return reader(data.decode("utf-8-sig"), **how)
    except UnicodeDecodeError as fault:
        raise Unfit(0, "it is no text in UTF-8: see byte %d" % (fault.start + 1)) from None


def read(path: Path, **how: Any) -> Table:
    """A table from a file: .csv and .geojson by their names, else a planner's table or an STP text.
    how -- unit, parallel and what else from_rows takes, for CSV and GeoJSON"""
    return table_of(path, content(path), **how)


def write(table: Content, path: Path) -> None:
    """Writes the table to a file: CSV or GeoJSON by the name, else the planner's table."""
    writer = _WRITERS.get(_suffix(path), to_text)
    with open(path, "w", encoding="utf-8", errors="surrogateescape", newline="") as file:
        file.write(writer(table))
