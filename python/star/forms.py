"""A table's calls that take and give other forms. What they do stands in rows.py, formats.py,
geojson.py, files.py and picture.py, which are loaded when they are asked for."""
from typing import TYPE_CHECKING, Any, Hashable, Iterable, Optional, Sequence, Union

from .content import Content

if TYPE_CHECKING:
    from .files import Path
    from .table import Table


class Forms(Content):
    """Tables from and to other forms."""

    @classmethod
    def from_rows(cls, rows: Iterable[Sequence[Any]], *,
                  junctions: Optional[Iterable[Hashable]] = None, unit: object = 1,
                  parallel: str = "refuse", loops: str = "refuse",
                  rounding: str = "refuse") -> "Table":
        """A table from rows with names and decimals: see star.rows.from_rows."""
        from .rows import from_rows
        return from_rows(rows, junctions=junctions, unit=unit, parallel=parallel, loops=loops,
                         rounding=rounding)

    @classmethod
    def from_networkx(cls, graph: Any, weight: str = "price", *, marked: str = "marked",
                      **how: Any) -> "Table":
        """A table from a graph of networkx: see star.formats.from_networkx."""
        from .formats import from_networkx
        return from_networkx(graph, weight, marked=marked, **how)

    def to_networkx(self, weight: str = "price") -> Any:
        """A graph of networkx: an edge a row in use, with its price, its number and its mark."""
        from .formats import to_networkx
        return to_networkx(self, weight)

    @classmethod
    def from_pandas(cls, frame: Any, left: str = "left", right: str = "right",
                    price: str = "price", marked: str = "marked", **how: Any) -> "Table":
        """A table from a frame of pandas: see star.formats.from_pandas."""
        from .formats import from_pandas
        return from_pandas(frame, left, right, price, marked, **how)

    def to_pandas(self) -> Any:
        """A frame of pandas: the rows in use, with their numbers as the index."""
        from .formats import to_pandas
        return to_pandas(self)

    @classmethod
    def from_csv(cls, text: str, **how: Any) -> "Table":
        """A table from CSV text: see star.formats.from_csv."""
        from .formats import from_csv
        return from_csv(text, **how)

    def to_csv(self) -> str:
        """CSV text: the rows in use, with a header."""
        from .formats import to_csv
        return to_csv(self)

    @classmethod
    def from_geojson(cls, text: str, price: str = "price", **how: Any) -> "Table":
        """A table from GeoJSON text: see star.geojson.from_geojson."""
        from .geojson import from_geojson
        return from_geojson(text, price, **how)

    def to_geojson(self) -> str:
        """GeoJSON text: a Point a junction, a LineString a row in use."""
        from .geojson import to_geojson
        return to_geojson(self)

    @classmethod
    def from_text(cls, text: Union[str, bytes]) -> "Table":
        """A table from the text of a planner's table or of an STP file."""
        from .files import from_text
        return from_text(text)

    def to_text(self) -> str:
        """The planner's table, as the console reads it: see star.files.to_text."""
        from .files import to_text
        return to_text(self)

    @classmethod
    def read(cls, path: "Path", **how: Any) -> "Table":
        """A table from a file: see star.files.read."""
        from .files import read
        return read(path, **how)

    def write(self, path: "Path") -> None:
        """Writes the table to a file: CSV or GeoJSON by the name, else the planner's table."""
        from .files import write
        write(self, path)

    def _repr_svg_(self) -> str:
        from .picture import svg
        return svg(self)
