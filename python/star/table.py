"""Tables of junctions and rows. What a table can do stands in the modules of the parts below."""
from .changes import Changes
from .forms import Forms
from .plans import Plans
from .questions import Questions


class Table(Questions, Plans, Changes, Forms):
    """A table of n junctions, and rows that join two of them at a price.

    n    -- the number of junctions, or their names, any hashable values
    rows -- (left, right, price), or with a fourth value that says whether the row is marked

    Rows are counted from 1. A price is a whole number of 32 bits. The marked rows are the plan.
    Threads may share a table: its calls come one after the other.

    >>> yard = Table(4, [(1, 2, 5), (2, 3, 3), (3, 4, 5), (1, 4, 4), (1, 3, 6)])
    >>> yard.plan = 1, 2, 3
    >>> yard.check()
    Verdict(passed=False, total=13, least=12, only=None, exchange=Exchange(out=1, into=4, saving=1))
    >>> yard.build().rows
    (1, 2, 4)

    What is wrong with a row is told by the next question, as Refused:

    >>> Table(2, [(1, 1, 5)]).build()
    Traceback (most recent call last):
    star.answers.Refused: refused 4 at 1: a row has an end that is 0 or above the number of \
junctions, or two equal ends
    """
