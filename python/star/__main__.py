"""The command line: python3 -m star check FILE"""
import io
import os
import sys
from typing import List

from . import Refused, Table, Unfit, __version__
from .files import LAYOUT as UNREADABLE
from .files import content, is_stp, table_of

USAGE = """\
usage: python3 -m star check FILE    is the marked plan of a file a least network?
       python3 -m star --help | --version

FILE is a planner's table, or by its name a CSV or GeoJSON file (.csv, .tsv, .geojson, .json).
The status is the console's: 0 passed, 1 a cheaper set exists, 2 refused, 3 the file cannot be read,
4 wrong usage, 5 the answer cannot be written.
"""


def trench(table: Table, number: int) -> str:
    """A row as it is told: with its junctions where they have names."""
    if all(isinstance(name, int) for name in table.junctions):
        return "row %d" % number
    row = next(row for row in table.rows if row.number == number)
    return "row %d (%s to %s)" % (number, row.left, row.right)


def named(table: Table, refusal: Refused) -> str:
    """A refusal of a plan, with the name of the junction or the row that is its place."""
    known = [row.number for row in table.rows]
    if refusal.number == 10 and table.junctions[refusal.place - 1] != refusal.place:
        return "%s: %s" % (refusal, table.junctions[refusal.place - 1])
    if refusal.number in (4, 6, 15) and refusal.place in known:
        told = trench(table, refusal.place)
        return "%s: %s" % (refusal, told) if told.endswith(")") else str(refusal)
    return str(refusal)


def said(path: str, table: Table) -> int:
    """Prints the verdict, and gives the status."""
    try:
        verdict = table.check()
    except Refused as refusal:
        print("%s: %s" % (path, named(table, refusal)))
        return 2
    if verdict.exchange is None or verdict.passed:
        only = "the only one" if verdict.only else "another has the same total"
        print("passed: a cheapest network, total %d; %s" % (verdict.total, only))
        return 0
    print("a cheaper set exists: the plan costs %d, the cheapest network %d" % (verdict.total,
                                                                             verdict.least))
    out, into, saving = verdict.exchange
    print("take out %s, put in %s: saves %d" % (trench(table, out), trench(table, into), saving))
    return 1


def check(path: str) -> int:
    """Reads a file and prints the verdict on its plan."""
    try:
        data = content(path)
        if is_stp(data):
            return failed(3, "%s: an STP file marks no row, so there is no plan to check" % path)
        table = table_of(path, data)
    except Refused as refusal:
        if refusal.number in UNREADABLE:
            return failed(3, "%s: %s" % (path, refusal.words))
        print("%s: %s" % (path, refusal))
        return 2
    except Unfit as fault:
        return failed(3, "%s: %s" % (path, fault))
    except (OSError, ValueError) as fault:  # a ValueError: the name has a zero byte
        return failed(3, "%s: %s" % (path, getattr(fault, "strerror", None) or fault))
    return said(path, table)


def failed(status: int, words: str) -> int:
    print(words, file=sys.stderr)
    return status


def main(words: List[str]) -> int:
    if words in (["--help"], ["-h"], ["help"], ["check", "--help"], ["check", "-h"]):
        print(USAGE, end="")
        return 0
    if words == ["--version"]:
        print("star %s" % __version__)
        return 0
    if len(words) == 2 and words[0] == "check" and not words[1].startswith("-"):
        return check(words[1])
    if not words:
        return failed(4, USAGE.rstrip("\n"))
    known = words[0] == "check"
    wrong = "check takes one file" if known else "%r is no command" % words[0]
    return failed(4, "star: %s; 'python3 -m star --help' says how it is used" % wrong)


def run(words: List[str]) -> int:
    """As main; an answer that cannot be written is told, and no name of a file stops it."""
    for stream in (sys.stdout, sys.stderr):
        if isinstance(stream, io.TextIOWrapper):
            stream.reconfigure(errors="backslashreplace")
    try:
        status = main(words)
        sys.stdout.flush()
        return status
    except OSError as fault:
        os.dup2(os.open(os.devnull, os.O_WRONLY), sys.stdout.fileno())
        return failed(5, "star: the answer cannot be written: %s" % fault.strerror)


if __name__ == "__main__":
    sys.exit(run(sys.argv[1:]))
