"""The doors that the header declares, as a C file: parameters, refusals, stack, a call of each.
usage: doors.py HEADER OUT.c
"""
import json
import re
import sys

SIZES = {"uint8_t": 1, "uint32_t": 4, "uint64_t": 8, "struct star_record": 12}
HEAD = """/* Made by tests/backends/doors.py from the header. */
#include "calls.h"
#include "star.h"
"""
REFUSALS = re.compile(r"A refusal is ((?:\d+|,| or| )+)")


def parameter(words):
    words = re.sub(r"\s+", " ", words)
    const = words.startswith("const ")
    words = words.replace("const ", "")
    if words.startswith("size_t"):
        return None  # it is the length of the pointer before it
    if "*" in words:
        kind, name = [w.strip() for w in words.split("*")]
        return {"name": name, "size": SIZES[kind], "const": const}
    kind, name = words.split(" ")
    return {"name": name, "number": kind}


def stacks_of(header):
    """What the header says of stack, in bytes, by door; under "" that of the others."""
    said = re.search(r"stack left, (.*?) for each of the others", flat(header)).group(1)
    out = {}
    for size, names in re.findall(r"([\d,]+) KiB((?: for| and| star_\w+)*)", said):
        for name in re.findall(r"star_\w+", names) or [""]:
            out[name] = int(size.replace(",", "")) << 10
    return out


def flat(comment):
    return re.sub(r"\s*\n \*\s*", " ", comment)


def doors_of(header):
    """Name to parameters and refusals; a door over a working table has those of the plain one."""
    doors = {}
    for at in re.finditer(r"^uint32_t (star_\w+)\(([^)]*)\);", header, re.M):
        name, inside = at.groups()
        parameters = [p for p in map(parameter, re.split(r",\s*", inside)) if p]
        plain = name.replace("star_work_", "star_")
        if plain != name:
            refusals = [r for r in doors[plain][1] if r != 2]
        else:
            comment = header[header.rindex("/*", 0, at.start()):at.start()]
            listed = REFUSALS.search(flat(comment)).group(1)
            refusals = [int(r) for r in re.findall(r"\d+", listed)]
        doors[name] = parameters, refusals
    return doors


def argument(k, p):
    if "number" in p:
        return "(%s)v[%d].number" % (p["number"], k)
    return "(void *)v[%d].bytes, v[%d].length / %d" % (k, k, p["size"])


def call(name, parameters):
    inside = ", ".join(argument(k, p) for k, p in enumerate(parameters))
    return ("static uint32_t call_%s(door_pointer at, const struct value *v) {\n"
            "    return ((__typeof__(%s) *)at)(%s);\n}\n" % (name, name, inside))


def entry(name, parameters, refusals, stack):
    inside = ", ".join('{"%s", %d, %d}' % (p["name"], p.get("size", 0), p.get("const", False))
                       for p in parameters)
    return '    {"%s", call_%s, %d, {%s}, {%s, 0}, %d},\n' % (
        name, name, len(parameters), inside, ", ".join(map(str, refusals)), stack)


def main():
    header, out = sys.argv[1:]
    with open(header) as file:
        text = file.read()
    doors, stacks = doors_of(text), stacks_of(text)
    with open(out, "w") as file:
        file.write(HEAD)
        for name, (parameters, _) in doors.items():
            file.write(call(name, parameters))
        file.write("const struct door doors[] = {\n")
        for name, (parameters, refusals) in doors.items():
            file.write(entry(name, parameters, refusals, stacks.get(name, stacks[""])))
        file.write("};\nconst unsigned doors_count = %d;\n" % len(doors))
        file.write("const char *const doors_words[] = {\n")
        for name, (parameters, _) in doors.items():
            file.write("    %s,\n" % json.dumps(json.dumps([name, parameters])))
        file.write("};\n")


main()
