"""Least networks by proved procedures: tables of junctions and trenches, checked, built, mended.

>>> import star
>>> yard = star.Table(4, [(1, 2, 5), (2, 3, 3), (3, 4, 5), (1, 4, 4), (1, 3, 6)])
>>> yard.build().total
12

The answers come from the proved core in libstar.so; what is written in Python is not proved.
"""
from . import _library
from .answers import (Choice, Detours, Districts, Exchange, Groups, Mended, Plan, Quote, Refused,
                      Row, Step, Unfit, Verdict)
from .table import Table
from .rows import Dropped, Report, Rounded

__version__: str = _library.version().decode()
__all__ = ["Table", "Refused", "Unfit", "Verdict", "Exchange", "Plan", "Step", "Mended",
           "Districts", "Quote", "Choice", "Groups", "Detours", "Row", "Report", "Dropped",
           "Rounded"]
