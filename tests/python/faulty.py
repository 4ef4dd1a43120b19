"""Faults in what is written in Python, each with the test that has to find it. A fault replaces one
name of a module."""
import json
from fractions import Fraction
from itertools import compress
from operator import index

import star
from star import (_library, answers, changes, columns, content, files, formats, geojson, plans,
                  questions, rows)
from star import __main__ as main

own = {}


def kept(module, name):
    """The function without the fault."""
    return own.setdefault((module, name), getattr(module, name))


def spoilt_verdict(v):
    verdict = kept(questions, "_verdict")(v)
    if verdict.exchange:
        verdict = verdict._replace(exchange=verdict.exchange._replace(
            out=verdict.exchange.into, into=verdict.exchange.out))
    return verdict


def always_only(v):
    verdict = kept(questions, "_verdict")(v)
    return verdict._replace(only=True) if verdict.passed else verdict


def totals_swapped(v):
    verdict = kept(questions, "_verdict")(v)
    return verdict._replace(total=verdict.least, least=verdict.total)


class Swapped(answers.Quote):
    def __new__(cls, before, after):
        return answers.Quote.__new__(cls, after, before)


class NoRings(answers.Groups):
    def __new__(cls, groups, rings):
        return answers.Groups.__new__(cls, groups, ())


class OneGroup(answers.Groups):
    def __new__(cls, groups, rings):
        return answers.Groups.__new__(cls, (sum(groups, ()),), rings)


class DetoursTurned(answers.Detours):
    def __new__(cls, total, dearest, instead):
        return answers.Detours.__new__(cls, total, instead, dearest)


def best_as_check(self):
    return self.check()


def total_of_the_least(self):
    return self.copy().build().total


def digs_of_the_least(self, plan=False):
    return kept(questions.Questions, "digs")(self)


def restored_marked(self, row):
    kept(changes.Changes, "restore")(self, row)
    self.mark(row)


def names_lost(self, names):
    self._names = None


def rows_without_names(table, number):
    return "row %d" % number


def line_as_place(data, place):
    return "line %d" % place


def csv_by_python(text):
    return None


def refused_without_place(number, place=0, words=""):
    return answers.Refused(number, 0, words)


def binary(value):
    return Fraction(value)


def keeps_last(self, place, left, right, given, mark):
    ends = frozenset((left, right))
    if ends in self.at and self.parallel == "cheapest" and left != right:
        old = self.rows[self.at[ends]]
        self.dropped.append(rows.Dropped(old[4], old[0], old[1], old[5], place))
        self.rows[self.at[ends]] = [left, right, self.price(place, given), mark, place, given]
        return
    kept(rows._Rows, "take")(self, place, left, right, given, mark)


def coarse_place(point):
    return tuple(round(x, 1) for x in point[:2])


def points_not_numbered(features):
    return kept(geojson, "_points")(features)[0], []


def unmarked_csv(t):
    return "\n".join(line[:-1] + "0" if line[-1:] == "1" else line
                     for line in kept(formats, "to_csv")(t).split("\n"))


def straight_lines(t):
    text = json.loads(kept(geojson, "to_geojson")(t))
    for feature in text["features"]:
        if feature["geometry"]["type"] == "LineString":
            line = feature["geometry"]["coordinates"]
            feature["geometry"]["coordinates"] = [line[0], line[-1]]
    return json.dumps(text)


def names_as_text(t, weight="price"):
    import networkx
    return networkx.relabel_nodes(kept(formats, "to_networkx")(t, weight), lambda v: str(v) + " ")


def unlocked_check(self):
    return questions._verdict(_library.check(self._at))


def all_in_use(self, given, once=False):
    return [columns.word(row) for row in given]


def slow_rows(marks):
    return tuple(compress(range(1, 1025), marks))


NETWORKX, PACKAGE, WRONG = "against_networkx.AgainstNetworkx.", "package.", "wrong."
FAULTS = {
    "exchange-turned": (questions, "_verdict", spoilt_verdict, NETWORKX + "test_check"),
    "always-only": (questions, "_verdict", always_only, NETWORKX + "test_check"),
    "totals-swapped": (questions, "_verdict", totals_swapped, NETWORKX + "test_check"),
    "quote-swapped": (questions, "Quote", Swapped, NETWORKX + "test_quote"),
    "rows-from-0": (answers, "_NUMBERS", range(0, 1024), NETWORKX + "test_least_totals"),
    "steps-exchanged": (plans, "_KINDS", {1: "added", 2: "dropped", 3: "exchanged"},
                        NETWORKX + "test_mend"),
    "walk-not-ordered": (questions.Questions, "_walked",
                         lambda self, found, at: tuple(sorted(found)), NETWORKX + "test_path"),
    "marks-of-which": (questions, "marks_of", lambda chosen: bytes(1024), NETWORKX + "test_which"),
    "rings-lost": (questions, "Groups", NoRings, NETWORKX + "test_groups"),
    "one-group": (questions, "Groups", OneGroup, NETWORKX + "test_groups"),
    "detours-turned": (questions, "Detours", DetoursTurned, NETWORKX + "test_detours"),
    "best-as-check": (questions.Questions, "best", best_as_check, NETWORKX + "test_best"),
    "total-of-the-least": (questions.Questions, "total", total_of_the_least,
                           NETWORKX + "test_total_and_digs"),
    "digs-of-the-least": (questions.Questions, "digs", digs_of_the_least,
                          NETWORKX + "test_total_and_digs"),
    "restored-marked": (changes.Changes, "restore", restored_marked, NETWORKX + "test_changes"),
    "names-lost": (content.Content, "_take_names", names_lost, PACKAGE + "Forms.test_named_tables"),
    "written-by-numbers": (files, "_names", lambda table: [],
                           PACKAGE + "Forms.test_named_tables"),
    "rows-without-names": (main, "trench", rows_without_names, PACKAGE + "Forms.test_command"),
    "csv-by-python": (formats, "_by_the_core", csv_by_python, PACKAGE + "Forms.test_csv"),
    "merge-forgets": (changes.Changes, "merge", lambda self: {}, NETWORKX + "test_changes"),
    "names-as-text": (formats, "to_networkx", names_as_text, NETWORKX + "test_round_trips"),
    "points-not-numbered": (geojson, "_points", points_not_numbered,
                            NETWORKX + "test_round_trips_of_places"),
    "place-lacking": (plans, "Refused", refused_without_place,
                      PACKAGE + "Refusals.test_by_number"),
    "words-cut": (questions, "word", lambda x: x % 2**32,
                  PACKAGE + "Refusals.test_numbers_that_words_do_not_hold"),
    "prices-cut": (questions, "price_of", lambda x: (x + 2**31) % 2**32 - 2**31,
                   PACKAGE + "Refusals.test_numbers_that_words_do_not_hold"),
    "ends-cut": (content, "end", lambda x: x % 256, PACKAGE + "Refusals.test_by_number"),
    "binary-prices": (rows, "exact", binary, PACKAGE + "Forms.test_exact_prices"),
    "keeps-last": (rows._Rows, "take", keeps_last, PACKAGE + "Forms.test_parallel_rows"),
    "csv-without-marks": (formats, "to_csv", unmarked_csv, PACKAGE + "Forms.test_csv"),
    "coarse-places": (geojson, "_place", coarse_place, PACKAGE + "Forms.test_geojson"),
    "straight-lines": (geojson, "to_geojson", straight_lines, PACKAGE + "Forms.test_geojson"),
    "lines-stay": (changes.Changes, "_carry_lines", lambda self: None,
                   PACKAGE + "Forms.test_geojson"),
    "suffix-lost": (files, "_suffix", lambda path: "", PACKAGE + "Forms.test_files"),
    "not-escaped": (star.picture, "escape", str, PACKAGE + "Forms.test_picture"),
    "bools-taken": (columns, "whole", lambda value, what: index(value),
                    WRONG + "Types.test_no_whole_number"),
    "some-changed": (content.Content, "_in_use", all_in_use,
                     WRONG + "Types.test_refused_before_anything_is_changed"),
    "any-point": (geojson, "_point", tuple, WRONG + "Types.test_texts_that_are_none"),
    "line-lost": (files, "_line", line_as_place, PACKAGE + "Forms.test_files"),
    "not-locked": (questions.Questions, "check", unlocked_check,
                   WRONG + "Threads.test_every_call_holds_the_lock"),
    "slow": (content, "rows_of", slow_rows, "costs.Costs.test_every_method"),
    "clears-one": (_library, "MAX_ROWS", 1, PACKAGE + "Refusals.test_full"),
}
