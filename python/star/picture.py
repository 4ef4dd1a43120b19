"""A small drawing of a table for notebooks: marked rows heavy, prices beside them."""
from html import escape
from math import cos, pi, sin
from typing import Dict, Tuple

from .content import Content

_SIZE, _EDGE = 480, 40


def _places(table: Content) -> Dict[int, Tuple[float, float]]:
    """Where each junction stands: by its coordinates where all have some, else on a circle."""
    if len(table._places) == table.n:
        return _fitted({k: (float(p[0]), -float(p[1])) for k, p in table._places.items()})
    turn = 2 * pi / table.n
    return _fitted({k: (sin(turn * k), -cos(turn * k)) for k in range(1, table.n + 1)})


def _fitted(places: Dict[int, Tuple[float, float]]) -> Dict[int, Tuple[float, float]]:
    """The places moved and scaled into the drawing, alike in both directions."""
    xs, ys = [p[0] for p in places.values()], [p[1] for p in places.values()]
    wide = max(max(xs) - min(xs), max(ys) - min(ys)) or 1.0
    scale = (_SIZE - 2 * _EDGE) / wide
    return {k: (_EDGE + (x - min(xs)) * scale, _EDGE + (y - min(ys)) * scale)
            for k, (x, y) in places.items()}


def svg(table: Content) -> str:
    """The table as SVG text."""
    at = _places(table)
    out = ['<svg xmlns="http://www.w3.org/2000/svg" width="%d" height="%d" '
           'font-family="sans-serif" font-size="12">' % (_SIZE, _SIZE)]
    left, right = table._t.left, table._t.right
    for row in table.rows:
        ends = left[row.number - 1], right[row.number - 1]
        if any(end not in at for end in ends):
            continue
        (x1, y1), (x2, y2) = at[ends[0]], at[ends[1]]
        heavy = '#1a5fb4" stroke-width="4' if row.marked else '#999" stroke-width="1'
        out.append('<line x1="%.1f" y1="%.1f" x2="%.1f" y2="%.1f" stroke="%s"/>'
                   % (x1, y1, x2, y2, heavy))
        out.append('<text x="%.1f" y="%.1f" fill="#333">%d</text>'
                   % ((x1 + x2) / 2, (y1 + y2) / 2, row.price))
    for number, (x, y) in sorted(at.items()):
        out.append('<circle cx="%.1f" cy="%.1f" r="5" fill="#333"/>' % (x, y))
        out.append('<text x="%.1f" y="%.1f" font-weight="bold">%s</text>'
                   % (x + 8, y - 8, escape(str(table._name(number)))))
    return "\n".join(out + ["</svg>"]) + "\n"
