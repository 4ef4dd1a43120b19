"""Tables from and to GeoJSON."""
import json
from typing import Any, Dict, FrozenSet, Hashable, List, Tuple

from .answers import Unfit
from .content import Content, Line
from .formats import prices
from .rows import from_rows
from .table import Table

Place = Tuple[float, ...]


def _features(text: str) -> List[Tuple[Dict[str, Any], Dict[str, Any]]]:
    """The geometry and the properties of each feature."""
    try:
        found = json.loads(text)
    except RecursionError:
        raise Unfit(0, "it is no GeoJSON: it is nested too deep") from None
    except ValueError as fault:
        raise Unfit(0, "it is no JSON: %s" % fault) from None
    features = found.get("features") if isinstance(found, dict) else None
    if not isinstance(features, list):
        raise Unfit(0, "it is no GeoJSON with a list of features")
    pairs = []
    for count, feature in enumerate(features, 1):
        parts = [feature.get(key) or {} for key in ("geometry", "properties")] if isinstance(
            feature, dict) else [None]
        if not all(isinstance(part, dict) for part in parts):
            raise Unfit(0, "feature %d is no feature of GeoJSON" % count)
        pairs.append((parts[0], parts[1]))
    return pairs


def _point(given: Any) -> Place:
    """The coordinates of a point, all of them numbers."""
    if not isinstance(given, list) or len(given) < 2:
        raise ValueError
    for number in given:
        if isinstance(number, bool) or not isinstance(number, (int, float)):
            raise ValueError
        if not -1e300 < number < 1e300:
            raise ValueError
    return tuple(given)


def _place(point: Place) -> Place:
    """Where a point lies, without its height."""
    return tuple(point[:2])


def _line(place: int, geometry: Dict[str, Any]) -> Line:
    given = geometry.get("coordinates")
    if geometry.get("type") != "LineString" or not isinstance(given, list) or len(given) < 2:
        raise Unfit(place, "it is neither a Point nor a LineString of two points or more")
    try:
        return tuple(map(_point, given))
    except ValueError:
        raise Unfit(place, "its coordinates are not numbers") from None


def _points(features: List[Tuple[Dict[str, Any], Dict[str, Any]]]
            ) -> Tuple[Dict[Place, Hashable], List[Place]]:
    """The names that Points give to junctions, and the places of those that say which junction they
    are, in the order of these numbers."""
    names: Dict[Place, Hashable] = {}
    numbered: List[Tuple[int, Place]] = []
    for geometry, properties in features:
        name, number = properties.get("name"), properties.get("junction")
        if geometry.get("type") != "Point" or name is None and type(number) is not int:
            continue
        if not isinstance(name, (str, int, float, type(None))):
            raise Unfit(0, "%.60r is no name of a junction" % (name,))
        try:
            place = _place(_point(geometry.get("coordinates")))
        except ValueError:
            raise Unfit(0, "the coordinates of the junction %r are not numbers" % name) from None
        if name is not None and name in names.values() and names.get(place) != name:
            raise Unfit(0, "two junctions are named %r" % name)
        if name is not None:
            names[place] = name
        if type(number) is int:
            numbered.append((number, place))
    return names, [place for _, place in sorted(numbered)]


def from_geojson(text: str, price: str = "price", **how: Any) -> Table:
    """A table from GeoJSON: a LineString a row, with its price among the properties. End points
    that coincide are one junction. A Point with a name names the junction there; one without is
    named by its coordinates. A Point with a number as its property junction is a junction, whether
    lines end there or not. Coordinates and the courses of the lines are kept."""
    features = _features(text)
    names, numbered = _points(features)
    rows: List[List[Any]] = []
    lines: List[Line] = []
    for geometry, properties in features:
        if geometry.get("type") == "Point":
            continue
        place = len(rows) + 1
        line = _line(place, geometry)
        if price not in properties:
            raise Unfit(place, "the feature has no %r" % price)
        ends = [_place(line[0]), _place(line[-1])]
        rows.append([names.setdefault(end, end) for end in ends]
                    + [properties[price], properties.get("marked")])
        lines.append(line)
    known = [names.setdefault(place, place) for place in numbered]
    known += [name for row in rows for name in row[:2]]
    how.setdefault("junctions", dict.fromkeys(known))
    table = from_rows(rows, **how)
    _keep(table, names, rows, lines)
    return table


def _keep(table: Table, names: Dict[Place, Hashable], rows: List[List[Any]], lines: List[Line]
          ) -> None:
    """Keeps the coordinates of the junctions, and the lines of the rows that the table has."""
    table._places = {table._numbers[name]: place for place, name in names.items()
                     if name in table._numbers}
    gone = {dropped.place for dropped in table.report.dropped}  # type: ignore[union-attr]
    ends: Dict[FrozenSet[Hashable], Line] = {}
    for place, (row, line) in enumerate(zip(rows, lines), 1):
        if place not in gone:
            ends[frozenset(row[:2])] = line
    table._lines = {row.number: ends[frozenset((row.left, row.right))] for row in table.rows}


def to_geojson(table: Content) -> str:
    """GeoJSON: a Point a junction, a LineString a row in use."""
    places = table.places
    lacking = [name for name in table.junctions if name not in places]
    if lacking:
        raise ValueError("junction %r has no coordinates" % (lacking[0],))
    features = []
    for number, name in enumerate(table.junctions, 1):
        named = {} if name == places[name] else {"name": name}
        features.append(_feature("Point", places[name], {**named, "junction": number}))
    for row, price in zip(table.rows, prices(table)):
        line = table._lines.get(row.number, (places[row.left], places[row.right]))
        features.append(_feature("LineString", line, {"price": price, "marked": row.marked}))
    return json.dumps({"type": "FeatureCollection", "features": features}, indent=1) + "\n"


def _feature(kind: str, coordinates: Any, properties: Dict[str, Any]) -> Dict[str, Any]:
    return {"type": "Feature", "properties": properties,
            "geometry": {"type": kind, "coordinates": coordinates}}
