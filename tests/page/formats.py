"""Reads each file of a folder with the Python package, and writes what comes of it, a line each.
usage: formats.py FOLDER"""
import json
import os
import sys

import star


def told(path):
    try:
        table = star.Table.read(path)
    except star.Unfit as fault:
        return {"place": fault.place, "words": fault.words}
    except star.Refused as fault:
        return {"refused": fault.number}
    rows = [[row.left, row.right, row.price, int(row.marked)] for row in table.rows]
    names = list(table.junctions)
    return {"n": len(names), "names": names, "rows": rows,
            "places": [list(table.places.get(name, ())) for name in names]}


for name in sorted(os.listdir(sys.argv[1])):
    print(json.dumps(told(os.path.join(sys.argv[1], name))))
