"""The ten tasks side by side: with the library from C and from Python, with networkx, with LEMON.
It makes a table, runs the four programs, holds their values to each other, counts the lines of each
task, and prints a table in Markdown: lines, and microseconds of processor time.

usage: compare.py BUILD   BUILD has libstar.so; what cannot be built or run here is left out
"""
import os
import random
import re
import subprocess
import sys
import tempfile

HERE = os.path.dirname(os.path.abspath(__file__))
ROOT = os.path.dirname(os.path.dirname(HERE))
SOURCES = {"star, C": "star.c", "star, Python": "tasks_star.py", "networkx": "tasks_networkx.py",
           "LEMON": "lemon.cpp"}


def table_text(n=64, m=256, seed=42):
    """A connected table, of which a network that is not least is marked."""
    any_ = random.Random(seed)
    ends = {(v, any_.randint(1, v - 1)): 1 for v in range(2, n + 1)}
    while len(ends) < m:
        u, v = sorted(any_.sample(range(1, n + 1), 2), reverse=True)
        ends.setdefault((u, v), 0)
    rows = ["%d %d %d %d\n" % (u, v, any_.randint(0, 4999), mark) for (u, v), mark in ends.items()]
    any_.shuffle(rows)
    return "junctions %d\n" % n + "".join(rows)


def lines(source):
    """The lines of each task that are neither empty nor a comment; the set-up is one of them."""
    counts, task = {}, None
    with open(os.path.join(HERE, source)) as file:
        for line in file:
            mark = re.match(r"(?:# |/\* )(task \w+|set-up|end)(?: \*/)?$", line.strip())
            if mark:
                task = mark.group(1).replace("task ", "")
            elif task and line.strip() and not re.match(r"(#(?!include)|/\*|\"\"\")", line.strip()):
                counts[task] = counts.get(task, 0) + 1
    counts.pop("end", None)
    return counts


def command(name, build, work):
    """How a program is run, after it is built; None where it cannot be."""
    source, program = os.path.join(HERE, SOURCES[name]), os.path.join(work, SOURCES[name] + ".run")
    if source.endswith(".py"):
        return ["python3", "-B", source]
    compiler = ["cc", "-std=gnu99"] if source.endswith(".c") else ["c++", "-std=c++11"]
    library = ["-I" + os.path.join(ROOT, "include"), os.path.join(build, "libstar.a")]
    words = compiler + ["-O2", "-o", program, source] + (library if source.endswith(".c") else [])
    built = subprocess.run(words, capture_output=True)
    return [program] if built.returncode == 0 else None


def run(build):
    found = {}
    with tempfile.TemporaryDirectory() as work:
        table = os.path.join(work, "table.txt")
        with open(table, "w") as file:
            file.write(table_text())
        known = dict(os.environ, PYTHONPATH=os.path.join(ROOT, "python"),
                     STAR_LIBRARY=os.path.abspath(os.path.join(build, "libstar.so")))
        for name in SOURCES:
            words = command(name, build, work)
            ran = words and subprocess.run(words + [table], env=known, capture_output=True,
                                           text=True)
            if ran and ran.returncode == 0:
                found[name] = {w[0]: (int(w[1]), float(w[2]))
                               for w in map(str.split, ran.stdout.splitlines())}
            else:
                why = ran.stderr[-200:] if ran else "it cannot be built"
                print("left out: %s: %s" % (name, why), file=sys.stderr)
    return found


def main(build):
    found = run(build)
    counted = {name: lines(SOURCES[name]) for name in found}
    tasks = [task for task in counted["star, C"] if task != "set-up"]
    wrong = 0
    print("| task | " + " | ".join(found) + " |")
    print("|---|" + "---|" * len(found))
    print("| set-up | " + " | ".join("%d lines" % counted[n]["set-up"] for n in found) + " |")
    for task in tasks:
        values = {found[name][task][0] for name in found}
        wrong += len(values) != 1
        print("| %s | %s |" % (task, " | ".join(
            "%d, %.1f" % (counted[n][task], found[n][task][1]) for n in found)))
    print("| in all | %s |" % " | ".join(
        "%d, %.1f" % (sum(counted[n].values()), sum(time for _, time in found[n].values()))
        for n in found))
    if wrong:
        print("%d tasks have other values" % wrong)
    return wrong


if __name__ == "__main__":
    sys.exit(main(sys.argv[1]))
