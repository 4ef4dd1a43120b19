"""What a call of the package costs beside the library's own time, over the yard: the time of the
method, less that of the library's function with its words made ready, plus that of a call of the
library that does next to nothing. It is counted in such calls, so that it does not depend on how
fast the machine is or how busy.

usage: costs.py   prints it for every method, and in microseconds
"""
import ctypes
import struct
import time
import unittest

import star
from star import _library as lib

YARD = [(1, 2, 5), (2, 3, 3), (3, 4, 5), (1, 4, 4), (1, 3, 6)]
# Five microseconds, where a call of the library that does next to nothing takes 0.36.
MOST = 14
ROUNDS, CALLS = 80, 50


def yard():
    t = star.Table(4, YARD)
    t.plan = 1, 2, 4
    return t


def written(t):
    """The library's writer over the table."""
    c, answer = t._t, lib.Answer()
    room = ctypes.create_string_buffer(29739)
    lib.write_table(4, c.in_use, 16, c.left, 5, c.right, 5, c.weight, 20, c.mark, 5, b"", 0, None, 0,
                    None, 0, 32, room, len(room), answer, 16)
    return ctypes.string_at(room, 40).decode()


def methods():
    """Each method, and the function of the library that it calls, with its words."""
    t = yard()
    at, words = t._at, struct.pack("=2I", 2, 1024)
    plans = [bytes([1, 1, 1, 0]) + bytes(1020), bytes([1, 1, 0, 1]) + bytes(1020)]
    matrix, records, forests = (ctypes.c_uint64 * 64)(), lib.Records(), lib.Column()
    numbers, first, rings = lib.Numbers(), lib.Junctions(), lib.Column()
    text = ctypes.create_string_buffer(lib.MAX_LIST)
    return {
        "check": (t.check, lambda: lib.check(at)),
        "other": (t.other, lambda: lib.other(at)),
        "which": (lambda: t.which((1, 2, 3), (1, 2, 4)), lambda: lib.which(at, *plans)),
        "path": (lambda: t.path(1, 3), lambda: lib.paths(at, 1, matrix)),
        "quote": (lambda: t.quote(4, 9), lambda: lib.quote(at, 4, 9)),
        "breaking": (lambda: t.breaking(4), lambda: lib.breaking(at, 4)),
        "total": (t.total, lambda: lib.total(at)),
        "best": (t.best, lambda: lib.best(at)),
        "detours": (t.detours, lambda: lib.detours(at, numbers)),
        "groups": (t.groups, lambda: lib.groups(at, first, rings)),
        "digs": (t.digs, lambda: lib.digs(at, text)),
        "digs(plan)": (lambda: t.digs(plan=True), lambda: lib.plan_digs(at, text)),
        "build": (t.build, lambda: lib.build(at)),
        "mend": (t.mend, lambda: lib.mend(at, records)),
        "outlets": (lambda: t.outlets(1, 2), lambda: lib.outlets(at, 1, 2)),
        "districts": (lambda: t.districts([2, 5]), lambda: lib.districts(at, words, 2, forests)),
        "add, strike": (lambda: t.strike(t.add(2, 4, 9)),
                        lambda: (lib.add(at, 2, 4, 9), lib.strike(at, 6))),
        "strike, restore": (lambda: (t.strike(5), t.restore(5)),
                            lambda: (lib.strike(at, 5), lib.restore(at, 5))),
        "merge": (t.merge, lambda: lib.merge(at)),
        "mark": (lambda: t.mark(1), lambda: lib.mark(at, 1, 1)),
        "plan": (lambda: t.plan, None),
        "plan = ..": (lambda: setattr(t, "plan", (1, 2, 4)), None),
        "rows": (lambda: t.rows, None),
        "len": (lambda: len(t), None),
        "to_text": (t.to_text, lambda: written(t)),
    }


def least(*calls):
    """The least time of each, in seconds; they take turns, so that what else the machine does falls
    on all of them."""
    best = [1.0] * len(calls)
    for _ in range(ROUNDS):
        for k, call in enumerate(calls):
            began = time.perf_counter()
            for _ in range(CALLS):
                call()
            best[k] = min(best[k], (time.perf_counter() - began) / CALLS)
    return best


def beside(name):
    """What a method costs beside the library's own time, and a call that does next to nothing."""
    method, own = methods()[name]
    t = yard()
    slow, bare, nothing = least(method, own or (lambda: None), lambda: lib.mark(t._at, 1, 1))
    return (slow - bare + nothing if own else slow), nothing


class Costs(unittest.TestCase):
    def test_every_method(self):
        for name in methods():
            for _ in range(5):  # a machine that is busy all the time is asked again
                cost, nothing = beside(name)
                if cost < MOST * nothing:
                    break
            self.assertLess(cost / nothing, MOST, name)


if __name__ == "__main__":
    for name in methods():
        cost, nothing = beside(name)
        print("%-15s %5.1f calls %6.2f microseconds" % (name, cost / nothing, cost * 1e6))
