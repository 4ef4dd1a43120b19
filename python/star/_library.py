"""The shared library: where it is found, its structures and its functions."""
import ctypes
import os
from ctypes import POINTER, Structure, c_char_p, c_int, c_int32, c_int64, c_size_t
from ctypes import c_uint, c_uint8, c_uint32, c_uint64, c_void_p
from typing import Any

MAX_JUNCTIONS, MAX_ROWS, MAX_LIST = 255, 1024, 6370
MAX_READ, MAX_FILE, MAX_STEPS, COLUMN_WORDS = 65536, 1 << 24, 2 * MAX_ROWS, 16
MIN_PRICE, MAX_PRICE = -2**31, 2**31 - 1
REFUSED, PASSED, LIGHTER = 0, 1, 2

Column = c_uint8 * MAX_ROWS
Numbers = c_uint32 * MAX_ROWS
Names = c_uint32 * MAX_JUNCTIONS
Junctions = c_uint8 * MAX_JUNCTIONS
Answer = c_uint8 * 16


class CTable(Structure):
    """struct star_table"""
    _fields_ = [("n", c_uint32), ("in_use", c_uint64 * COLUMN_WORDS), ("left", Column),
                ("right", Column), ("weight", c_uint8 * (4 * MAX_ROWS)), ("mark", Column),
                ("numbers", Numbers)]


class CVerdict(Structure):
    """struct star_verdict"""
    _fields_ = [("kind", c_uint), ("number", c_uint), ("place", c_uint), ("only", c_uint),
                ("out", c_uint), ("into", c_uint), ("which", c_uint), ("steps", c_uint),
                ("saving", c_int64), ("total", c_int64), ("least", c_int64)]


class CAnswer(Structure):
    """struct star_answer"""
    _fields_ = [("kind", c_uint), ("number", c_uint), ("out", c_uint), ("into", c_uint),
                ("only", c_uint), ("amount", c_int64)]


class CQuoted(Structure):
    """struct star_quoted"""
    _fields_ = [("kind", c_uint), ("number", c_uint), ("place", c_uint), ("before", c_int64),
                ("after", c_int64)]


class CImported(Structure):
    """struct star_imported"""
    _fields_ = [("kind", c_uint), ("number", c_uint), ("n", c_uint), ("m", c_uint),
                ("place", c_uint64)]


class CFile(Structure):
    """struct star_file"""
    _fields_ = [("kind", c_uint), ("number", c_uint), ("names", c_uint), ("m", c_uint),
                ("n", c_uint32), ("place", c_uint32)]


class CRecord(Structure):
    """struct star_record"""
    _fields_ = [("kind", c_uint32), ("out", c_uint32), ("into", c_uint32)]


Records = CRecord * MAX_STEPS


def _path() -> str:
    """The library that STAR_LIBRARY names, else the one in the package, else the system's."""
    inside = os.path.join(os.path.dirname(os.path.abspath(__file__)), "libstar.so")
    named = os.environ.get("STAR_LIBRARY")
    return named or (inside if os.path.exists(inside) else "libstar.so.0")


def _load() -> ctypes.CDLL:
    try:
        return ctypes.CDLL(_path())
    except OSError as fault:
        raise ImportError("the library of the package star is not loaded: %s; make wheel puts it "
                          "inside, and STAR_LIBRARY names another" % fault) from None


_loaded = _load()


def _function(name: str, result: Any, *arguments: Any) -> Any:
    try:
        function = getattr(_loaded, "star_" + name)
    except AttributeError:
        raise ImportError("%s has no star_%s: it is of another version" % (_path(), name)) from None
    function.restype = result
    function.argtypes = arguments
    return function


_table = POINTER(CTable)
version = _function("version", c_char_p)
refusal_text = _function("refusal_text", c_char_p, c_uint)
init = _function("table_init", None, _table, c_uint32)
add = _function("table_add", CAnswer, _table, c_uint32, c_uint32, c_int32)
mark = _function("table_mark", c_int, _table, c_uint32, c_int)
strike = _function("table_strike", CAnswer, _table, c_uint32)
restore = _function("table_restore", CAnswer, _table, c_uint32)
merge = _function("table_merge", CAnswer, _table)
check = _function("table_check", CVerdict, _table)
other = _function("table_other", CVerdict, _table)
build = _function("table_build", CVerdict, _table)
mend = _function("table_mend", CVerdict, _table, c_void_p)
outlets = _function("table_outlets", CVerdict, _table, c_uint32, c_uint32)
districts = _function("table_districts", CVerdict, _table, c_void_p, c_size_t, c_void_p)
which = _function("table_which", CVerdict, _table, c_char_p, c_char_p)
quote = _function("table_quote", CQuoted, _table, c_uint32, c_int32)
breaking = _function("table_breaking", CAnswer, _table, c_uint32)
digs = _function("table_digs", CAnswer, _table, c_void_p)
plan_digs = _function("table_plan_digs", CAnswer, _table, c_void_p)
total = _function("table_total", CAnswer, _table)
best = _function("table_best", CVerdict, _table)
detours = _function("table_detours", CAnswer, _table, c_void_p)
groups = _function("table_groups", CAnswer, _table, c_void_p, c_void_p)
paths = _function("table_paths", CAnswer, _table, c_uint32, c_void_p)
read = _function("table_read", CImported, _table, c_char_p, c_size_t)
# The reader of table files: the text, then each column with its length, then the answer.
read_table = _function("read_table", c_uint32, c_char_p, c_size_t, *9 * (c_void_p, c_size_t))
read_file = _function("read_file", CFile, c_void_p)
line_of = _function("line_of", c_uint64, c_char_p, c_size_t, c_uint32)
# The writer: how many junctions, the columns, a text and where names stand in it, the byte between
# fields, the room, the answer.
write_table = _function("write_table", c_uint32, c_uint32, *5 * (c_void_p, c_size_t), c_char_p,
                        c_size_t, *2 * (c_void_p, c_size_t), c_uint8, *2 * (c_void_p, c_size_t))
