"""Tables from and to graphs of networkx, frames of pandas, and CSV."""
import csv
import io
import re
from typing import Any, List, Optional, Tuple

from .answers import Refused, Unfit
from .content import Content
from .rows import Report, from_rows, number
from .table import Table


def prices(table: Content) -> List[object]:
    """The prices of the rows in use as they were handed in: whole, or with decimals."""
    return [number(row.price * table.unit) for row in table.rows]


def from_networkx(graph: Any, weight: str = "price", *, marked: str = "marked",
                  **how: Any) -> Table:
    """A table from a graph of networkx: its nodes are the junctions, an edge is a row.

    weight -- the attribute that has an edge's price; marked -- the one that says whether it is in
    the plan; how -- unit, parallel, loops and rounding, as from_rows takes them
    """
    if graph.is_directed():
        raise ValueError("a directed graph is no table: trenches have no direction")
    rows = []
    for place, (u, v, data) in enumerate(graph.edges(data=True), 1):
        if weight not in data:
            raise Unfit(place, "the edge from %r to %r has no %r" % (u, v, weight))
        rows.append((u, v, data[weight], data.get(marked, False)))
    table = from_rows(rows, junctions=graph.nodes, **how)
    for name, data in graph.nodes(data=True):
        if "pos" in data:
            table._places[table._number(name)] = tuple(data["pos"])
    return table


def to_networkx(table: Content, weight: str = "price") -> Any:
    """A graph of networkx: an edge a row in use, with its price, its number and its mark."""
    import networkx
    graph = networkx.Graph()
    graph.add_nodes_from(table.junctions)
    for name, place in table.places.items():
        graph.nodes[name]["pos"] = place
    for row, price in zip(table.rows, prices(table)):
        graph.add_edge(row.left, row.right, **{weight: price, "row": row.number,
                                               "marked": row.marked})
    return graph


def from_pandas(frame: Any, left: str = "left", right: str = "right", price: str = "price",
                marked: str = "marked", **how: Any) -> Table:
    """A table from a frame of pandas with a row a trench."""
    marks = frame[marked] if marked in frame else [False] * len(frame)
    return from_rows(zip(frame[left], frame[right], frame[price], marks), **how)


def to_pandas(table: Content) -> Any:
    """A frame of pandas: the rows in use, with their numbers as the index."""
    import pandas
    columns = {"left": [row.left for row in table.rows], "right": [row.right for row in table.rows],
               "price": prices(table), "marked": [row.marked for row in table.rows]}
    return pandas.DataFrame(columns, index=[row.number for row in table.rows])


_HEADER = ["left", "right", "price", "marked"]
_MARKS = {"": False, "0": False, "no": False, "false": False,
          "1": True, "x": True, "yes": True, "true": True}


def _numbered(names: List[str]) -> bool:
    """Whether all names are numbers of junctions."""
    return all(name.isascii() and name.isdigit() and len(name) < 10 and 1 <= int(name) <= 255
               for name in names)


def _csv_rows(text: str) -> List[Tuple[str, str, str, bool]]:
    first = text.split("\n", 1)[0]
    parted = max(",;\t", key=first.count)
    reader = csv.DictReader(io.StringIO(text, newline=""), delimiter=parted)
    for field in ("left", "right", "price"):
        if field not in (reader.fieldnames or ()):
            raise Unfit(0, "the header has no %r" % field)
    rows = []
    for place, row in enumerate(reader, 1):
        mark = (row.get("marked") or "").strip().lower()
        if None in row.values() or None in row or mark not in _MARKS:
            raise Unfit(place, "its fields are not those of the header, or its mark is none")
        rows.append((row["left"].strip(), row["right"].strip(), row["price"], _MARKS[mark]))
    return rows


def _by_the_core(text: str) -> Optional[Table]:
    """The table of a CSV text that is a planner's table; None where it is none."""
    from .files import bytes_of, from_table
    header = [word.strip().lower() for word in re.split("[,;\t]", text.split("\n", 1)[0])]
    if "price" in header and header not in (_HEADER, _HEADER[:3]):
        return None
    try:
        table = from_table(bytes_of(text))
    except Refused:
        return None
    table.report = Report((), ())
    return table


def from_csv(text: str, **how: Any) -> Table:
    """A table from CSV text: a header with left, right and price, and marked if there are marks,
    fields parted by commas, semicolons or tabs. Junctions that are all numbers from 1 to 255 are
    taken as these numbers, else as names. What the core's reader of table files takes, it reads;
    what CSV has and a table file has not, such as decimals with a unit, other columns and quoted
    separators, is read here.

    >>> Table.from_csv("left,right,price\\nmill,lock,7\\n").junctions
    ('mill', 'lock')
    """
    table = None if how else _by_the_core(text)
    if table is not None:
        return table
    try:
        rows = _csv_rows(text)
    except csv.Error as fault:
        raise Unfit(0, "it is no CSV text: %s" % fault) from None
    names = [name for row in rows for name in row[:2]]
    if not names or not _numbered(names):
        return from_rows(rows, **how)
    numbered = [(int(left), int(right), price, mark) for left, right, price, mark in rows]
    table = from_rows(numbered, junctions=range(1, max(map(int, names)) + 1), **how)
    table._names = None
    return table


def to_csv(table: Content) -> str:
    """CSV text: the rows in use, with a header."""
    out = io.StringIO()
    writer = csv.writer(out, lineterminator="\n")
    writer.writerow(_HEADER)
    for row, price in zip(table.rows, prices(table)):
        writer.writerow([row.left, row.right, price, int(row.marked)])
    return out.getvalue()
