"""Texts of the tests of table files, and what a reader written from the rules says of each, a line of JSON each: the
table, or the lines that cannot stand, each of which is blanked before the text is read again.
usage: readings.py COUNT [FILE..]"""
import base64
import json
import os
import re
import sys

sys.path.insert(0, os.path.join(os.path.dirname(os.path.abspath(__file__)), "../tablefile"))
from reader import Reader, line_of  # noqa: E402
from run import texts  # noqa: E402

TOLD = 20
MOST = 100000  # longer texts are not handed over


def faults(reader, text):
    """The line and number of each refusal, at most TOLD and one more."""
    told = []
    while True:
        said = reader.read(text)
        if said[0] == "read" or len(told) > TOLD:
            return told
        place = said[2]
        told.append([line_of(text, place), said[1]])
        if said[1] in (2, 26):
            return told
        start = max(text.rfind(b"\n", 0, place), text.rfind(b"\r", 0, place)) + 1
        end = re.compile(rb"[\r\n]|\Z").search(text, place).start()
        text = text[:start] + b" " * (end - start) + text[end:]


def told(reader, text):
    said = reader.read(text)
    if said[0] == "refused":
        return {"faults": faults(reader, text)}
    _, n, rows, names, _ = said
    return {"n": n, "rows": [list(row[:4]) + [int(row[4])] for row in rows],
            "names": [name.decode("latin-1") for name in names], "lines": [line_of(text, row[5]) for row in rows[:9]]}


for one in texts(int(sys.argv[1]), sys.argv[2:]):
    if len(one) < MOST:
        print(json.dumps(dict(told(Reader(), one), text=base64.b64encode(one).decode())))
