"""Tests of strike, unstrike, mark, unmark, price, add and merge: on random files, what they write against a list of the trenches changed in the same
way, what they tell of the numbers, and that every other command says of a file with struck trenches what it says of the file without them, the numbers apart.
usage: changes.py STAR"""
import random, re, sys

from calls import fault, faults, star

random.seed(17)


def read(text):
    """The trenches of a file: struck or not, and the words after that."""
    rows = [line.split("#")[0].split() for line in text.split("\n")]
    return [(row[0] == "struck", tuple(row[row[0] == "struck":])) for row in rows if row and row[0] != "junctions"]


def junctions(text):
    told = re.search(r"^junctions (\d+)", text, re.M)
    return int(told[1]) if told else max((int(v) for _, row in read(text) for v in row[:2]), default=0)


def comments(text, struck):
    """The comments in their order; those of struck trenches too, if they are to stay."""
    return [line.split("#", 1)[1] for line in text.split("\n") if "#" in line and (struck or not line.startswith("struck"))]


def merged(rows):
    return [row for row in rows if not row[0]]


def numbers(rows):
    """What is told of a merge: the new number of each trench that has one."""
    new, told = 0, []
    for old, (struck, _) in enumerate(rows, 1):
        new += not struck
        if not struck and new != old:
            told.append("trench %d is now trench %d" % (old, new))
    return told


def random_file():
    n = random.randrange(2, 11)
    pairs = [(u, v) if random.random() < 0.5 else (v, u) for u in range(1, n + 1) for v in range(u + 1, n + 1)]
    random.shuffle(pairs)
    lines = ["%s%d %d %d %d%s" % (random.choice(("", "", "struck ")), u, v, random.choice((0, 3, -7, 50, random.randrange(-99, 99))), random.random() < 0.4,
                                  random.choice(("", "", "  # %d%d" % (u, v)))) for u, v in pairs[:random.randrange(1, 2 * n)]]
    for line in ["# a comment", "", "junctions %d" % n][:random.randrange(4)]:
        lines.insert(random.randrange(len(lines) + 1), line)
    return "\n".join(lines) + random.choice(("\n", "\n", ""))


def refusal(text, rows, left, right):
    """The number of the refusal of a file with a new trench; 0 for none."""
    if left == right or ("junctions" in text and max(left, right) > junctions(text)):
        return 4
    pairs = [set(row[:2]) for struck, row in rows if not struck]
    return 15 if {str(left), str(right)} in pairs else 0


def some(numbers):
    return random.sample(numbers, random.randrange(1, len(numbers) + 1)) if numbers else []


def lines_alone(text, rows, command, chosen, change, *after):
    """Each chosen trench's line is changed in its words, and no other line nor a comment."""
    if not chosen:
        return
    out, err, status = star(text, command, *map(str, chosen), *after)
    number, lines = 0, []
    for line in text.split("\n"):
        words = line.split("#")[0].split()
        trench = words and words[0] != "junctions"
        number += bool(trench)
        if trench and number in chosen and change(words) != words:
            line = line.replace(line.split("#")[0].rstrip(), " ".join(change(words)))
        lines.append(line)
    if status or out != "\n".join(lines) or re.sub(r"trench \d+ (is marked|is unmarked|has this price) already\n", "", err):
        fault(command, text, chosen, out, err)


def without_places(said):
    """What was said, without lines of the file and without what is said of struck trenches."""
    said = re.sub(r" \(line \d+\)", "", said.replace("No trench in use", "No trench"))
    return re.sub(r"standard input:\d+:", "standard input:", re.sub(r" \d+ struck trench(es are| is) left out\.", "", said))


def with_old_numbers(said, rows):
    """What was said of the merged file, with the numbers that its trenches have in the file itself."""
    old = [0] + [i for i, (struck, _) in enumerate(rows, 1) if not struck]
    several = lambda found: found[1] + ", ".join(str(old[int(word)]) for word in found[2].split(", "))
    return re.sub(r"(trench(?:es)? )(\d+(?:, \d+)*)", several, said)


for number in range(150):
    text = random_file()
    rows = read(text)
    used = [i for i, (struck, _) in enumerate(rows, 1) if not struck]
    # strike
    chosen = random.sample(used, random.randrange(1, len(used) + 1)) if used else []
    out, err, status = star(text, "strike", *map(str, chosen)) if chosen else (text, "", 0)
    if status or err or read(out) != [(struck or i in chosen, row) for i, (struck, row) in enumerate(rows, 1)]:
        fault("strike", text, chosen, out, err)
    if comments(out, True) != comments(text, True) or junctions(out) != junctions(text):
        fault("what stands beside struck trenches", text, chosen, out)
    # merge
    out, err, status = star(text, "merge")
    if status or read(out) != merged(rows) or re.findall(r"trench \d+ is now .*", err) != numbers(rows) or comments(out, False) != comments(text, False) or junctions(out) != junctions(text):
        fault("merge", text, out, err)
    # add: a loop, a pair that is there already and an end above the number of junctions are refused
    left, right, price = random.randrange(1, 12), random.randrange(1, 12), random.randrange(-50, 50)
    out2, err, status = star(text, "add", str(left), str(right), str(price))
    at = max(used, default=0)
    number = refusal(text, rows, left, right)
    if number:
        if status != 2 or out2 or not err.startswith("Refused (%d): " % number) or "Nothing is written" not in err:
            fault("add that is refused", text, left, right, out2, err)
    else:
        if status or read(out2) != rows[:at] + [(False, (str(left), str(right), str(price), "0"))] + rows[at + 1:] or err.split("\n")[0] != "trench %d is new" % (at + 1):
            fault("add", text, out2, err)
        if junctions(out2) != (junctions(text) if "junctions" in text else max(junctions(text), left, right)):
            fault("the junctions after add", text, out2)
    # lines that are changed alone
    struck_ones = [i for i in range(1, len(rows) + 1) if i not in used]
    lines_alone(text, rows, "unstrike", some(struck_ones), lambda words: words[1:])
    lines_alone(text, rows, "mark", some(used), lambda words: words[:3] + ["1"])
    lines_alone(text, rows, "unmark", some(used), lambda words: words[:3] + ["0"])
    if used:
        lines_alone(text, rows, "price", [random.choice(used)], lambda words: words[:2] + [str(price)] + words[3:], str(price))
    # every other command
    for words in ["check"], ["build"], ["explain", "--all"], ["build", "--table"]:
        said, without = star(text, *words), star(out, *words)
        if words[-1] == "--table":
            if merged(read(said[0])) != read(without[0]) or said[2] != without[2]:
                fault(words, text, said, without)
        elif without_places(said[0]) != with_old_numbers(without_places(without[0]), rows) or said[2] != without[2]:
            fault(words, text, said, without)
sys.exit(len(faults) != 0)
