"""Tests of the help and of what is made from the table of commands.

usage: help.py STAR..   Ends in one line 'N passed, M failed'.

Every command has a page: its words, an example with its output, its statuses. The example is run
over the files of console/examples, and has to write what the page says. The manual page and the
documents are as 'make manual' makes them.
"""
import os
import re
import shlex
import shutil
import subprocess
import sys
import tempfile

ROOT = os.path.dirname(os.path.dirname(os.path.abspath(__file__)))
STAR = sys.argv[1:]
MADE = ["console/star.1", "README.md", "docs/GUIDE.md"]
counts = {True: 0, False: 0}


def holds(name, value, shown=""):
    """Counts a test."""
    counts[bool(value)] += 1
    if not value:
        print("help %s failed: %s" % (name, shown))


def star(words, folder=ROOT):
    """Runs the console: its status and what it writes, standard error after standard output."""
    done = subprocess.run(STAR + words, cwd=folder, stdin=subprocess.DEVNULL, capture_output=True)
    return done.returncode, (done.stdout + done.stderr).decode()


def section(page, name):
    """The indented lines under a heading, without four blanks each."""
    found = re.search(r"^%s:\n((?:    .*\n|\n(?=    ))*)" % name, page, re.M)
    lines = found.group(1).splitlines() if found else []
    return [line[4:] for line in lines]


def commands():
    """The commands that the console knows, by its own table."""
    with open(os.path.join(ROOT, "console/main.c")) as source:
        return re.findall(r'^    \{"([a-z]+)", command_', source.read(), re.M)


def whole():
    """The help of all: 80 columns, 40 lines, a line a command."""
    status, text = star(["--help"])
    lines = text.splitlines()
    holds("ends with 0", status == 0)
    holds("40 lines", len(lines) <= 40, len(lines))
    holds("80 columns", max(map(len, lines)) <= 80, max(map(len, lines)))
    listed = [line.split()[0] for line in lines if re.match(r"  [a-z]", line)]
    holds("lists each command once", sorted(listed) == sorted(commands()), listed)
    holds("no command is missing", len(commands()) >= 18)
    holds("-h is the same", star(["-h"]) == (status, text))


def example(name, page, folder):
    """Runs a page's example and holds what it writes, and its status, to the page."""
    lines = section(page, "Example")
    holds(name + ": an example", lines and lines[0].startswith("$ star %s " % name), lines[:1])
    if not lines:
        return
    status, text = star(shlex.split(lines[0])[2:], folder)
    holds(name + ": the example's output", text.splitlines() == lines[1:], text)
    statuses = [line.split()[0] for line in section(page, "Status") if line[0] != " "]
    holds(name + ": the example's status", str(status) in statuses and status < 3, status)


def one(name, folder):
    """The page of one command."""
    status, page = star([name, "--help"])
    holds(name + ": its own page", page.startswith("usage: star %s " % name), page[:60])
    holds(name + ": ends with 0", status == 0)
    holds(name + ": -h is the same", star([name, "-h"])[1] == page)
    before = page[: page.find("\nExample:")]
    holds(name + ": 80 columns", max(map(len, before.splitlines())) <= 80)
    statuses = [line.split()[0] for line in section(page, "Status") if line[0] != " "]
    holds(name + ": statuses", {"0", "3", "4", "5"} <= set(statuses), statuses)
    described = [line.split()[0] for line in section(page, "Words")]
    operands = set(re.findall(r"[A-Z]+", page.splitlines()[0])) - {"OUTPUT"}
    holds(name + ": each word is described", operands == set(described), described)
    for option in re.findall(r"\[(-[-a-z]+)", page.splitlines()[0]):
        listed = [line.split()[0] for line in section(page, "Options")]
        holds("%s: %s is described" % (name, option), option in listed, listed)
    example(name, page, folder)


def made(folder):
    """The manual page and the documents are as the table makes them."""
    program = os.path.join(folder, "manual")
    words = [os.environ.get("CC", "cc"), "-std=c99", "-Iconsole", "-o", program]
    words += ["console/manual/manual.c", "console/pages.c"]
    built = subprocess.run(words, cwd=ROOT)
    holds("the program that makes them", built.returncode == 0)
    for name in MADE:
        path = os.path.join(ROOT, name)
        if built.returncode != 0 or not os.path.exists(path):
            continue
        with open(path, "rb") as text:
            own = text.read()
        again = subprocess.run([program], input=own, capture_output=True)
        holds(name + " is as 'make manual' makes it", again.returncode == 0 and again.stdout == own)
    with open(os.path.join(ROOT, "docs/GUIDE.md")) as text:
        guide = text.read()
    holds("the guide has the list of commands", "made by make manual: list of commands" in guide)
    with open(os.path.join(ROOT, "console/star.1")) as text:
        manual = text.read()
    holds("seven sections of the manual page are made", manual.count("made by make manual: ") == 7)


def main():
    with tempfile.TemporaryDirectory() as folder:
        examples = os.path.join(folder, "examples")
        shutil.copytree(os.path.join(ROOT, "console/examples"), examples)
        whole()
        for name in commands():
            one(name, examples)
        made(folder)
    print("%d passed, %d failed" % (counts[True], counts[False]))
    return 1 if counts[False] else 0


if __name__ == "__main__":
    sys.exit(main())
