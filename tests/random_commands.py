"""Random command lines and files: the console ends with a status of its own and finds no fault of
memory or of arithmetic, whatever it is given, and each file that -o names is as it was or whole.

usage: random_commands.py COUNT SEED STAR..   STAR is best built with ASan and UBSan. Ends in one
line 'N passed, M failed'.

A case is a folder with a plan, a second file, and links to them; a command line with an output;
and, in some cases, a limit on the size of files, or a signal after a random time. What is whole is
what the same command line without -o writes to standard output. Every other file stays as it was,
and nothing is left beside it, unless SIGKILL came.
"""
import collections
import multiprocessing
import os
import random
import resource
import shutil
import signal
import stat
import subprocess
import sys
import tempfile
import time

COMMANDS = ("check build explain page draw dot table digs quote breaking which stretch strike "
            "unstrike mark unmark price add merge districts mend outlets").split()
TABLES = "table strike unstrike mark unmark price add merge mend".split()
FAULT = 99
ENVIRONMENT = dict(os.environ, ASAN_OPTIONS="exitcode=%d" % FAULT,
                   UBSAN_OPTIONS="exitcode=%d:halt_on_error=1" % FAULT)
NUMBERS = ["0", "1", "2", "3", "4", "5", "8", "007", "255", "256", "1024", "1025", "-1", "-7",
           "2147483647", "-2147483648", "2147483648", "4294967296", "99999999999999999999"]
OPTIONS = ["--table", "--all", "--steps", "--json", "--certificate", "--plan", "--help", "--", "-x", "-h"]


def table(dice):
    """A table: sound but for its plan, mostly."""
    n = dice.choice((1, 2, 3, 4, 4, 5, 5, 8, 12, 40))
    pairs = [(u, v) for u in range(1, n + 1) for v in range(u + 1, n + 1)]
    dice.shuffle(pairs)
    lines = []
    for u, v in pairs[:dice.choice((n, 2 * n, 1100))]:
        ends = (u, v) if dice.random() < 0.5 else (v, u)
        struck = dice.choice(("", "", "", "", "struck ", " STRUCK\t"))
        mark = dice.choice(("", " 0", " 1", " 1", " 01"))
        note = dice.choice(("", "", "  # street %d%d" % ends, "# \xe4"))
        price = dice.choice((0, 3, 3, -7, 50, 2147483647, -2147483648, dice.randrange(-99, 99)))
        lines.append("%s%d %d %d%s%s" % ((struck,) + ends + (price, mark, note)))
    for extra in ("# a comment", "", dice.choice(("junctions %d", "junctions 0%d # told")) % n):
        if dice.random() < 0.25:
            lines.insert(dice.randrange(len(lines) + 1), extra)
    return lines


def spoilt(dice, lines):
    """The table with a few words that are wrong."""
    wrong = ["0 1 5 1", "1 1 5 0", "1 2", "x", "1 2 5 7", "1 300 4 1", "struck", "struck 1 2 3 9",
             "1,2,3,1", "1 2 4.5 1", "junctions 0", "junctions 256", "\0", "1 2 5 1 1", "\x80 #"]
    for _ in range(dice.choice((1, 1, 2, 30))):
        lines.insert(dice.randrange(len(lines) + 1), dice.choice(wrong))
    return lines


def stp(dice, lines):
    """An STP text, whole or not."""
    rows = ["E " + line.split("#")[0] for line in lines if line[:1].isdigit()]
    text = ["33D32945 STP File", "SECTION Graph", "Nodes 8", "Edges %d" % len(rows)]
    text += [" ".join(row.split()[:4]) for row in rows] + ["END", "EOF"]
    if dice.random() < 0.3:
        del text[dice.randrange(1, len(text))]
    return text


def content(dice):
    """The bytes of a file."""
    kind = dice.random()
    lines = table(dice)
    if kind < 0.12:
        lines = spoilt(dice, lines)
    elif kind < 0.2:
        lines = stp(dice, lines)
    elif kind < 0.25:
        return bytes(dice.randrange(256) for _ in range(dice.choice((0, 1, 40, 3000))))
    end = dice.choice(("\n", "\n", "\n", "\r\n", "\r"))
    mark = dice.choice((b"",) * 30 + (b"\xef\xbb\xbf",) * 9 + (b"\xff\xfe",))
    return mark + (end.join(lines) + dice.choice((end, end, ""))).encode("latin-1")


def device(name, minor):
    """A device of the case's own: a wrong console, run by root, would replace the system's."""
    if os.getuid() == 0:
        os.mknod(name, 0o666 | stat.S_IFCHR, os.makedev(1, minor))
    else:
        os.symlink("/dev/full" if minor == 7 else "/dev/null", name)


def fill(dice, folder):
    """The files of a case."""
    os.mkdir(folder)
    os.mkdir(folder + "/within")
    for name in ("plan", "other"):
        with open("%s/%s" % (folder, name), "wb") as file:
            file.write(content(dice))
    if dice.random() < 0.5: # a second plan over the same trenches
        shutil.copy(folder + "/plan", folder + "/other")
    os.link(folder + "/plan", folder + "/hard")
    os.symlink("plan", folder + "/link")
    os.symlink("../link", folder + "/within/far")
    os.symlink("within/new", folder + "/dangling")
    os.symlink("nowhere/new", folder + "/lost")
    os.symlink("loop", folder + "/loop")
    os.symlink("/proc/self/fd/1", folder + "/stdout")
    device(folder + "/full", 7)
    device(folder + "/null", 3)
    os.chmod(folder + "/other", dice.choice((0o600, 0o644, 0o664, 0o755)))


def words_of(dice, command):
    """What follows a command's file."""
    number = lambda: dice.choice(NUMBERS[:8] if dice.random() < 0.8 else NUMBERS)
    counts = {"quote": 2, "breaking": 1, "stretch": 2, "price": 2, "add": 3, "outlets": 2,
              "explain": dice.choice((0, 1)), "which": 1, "districts": dice.randrange(4)}
    count = counts.get(command, dice.randrange(1, 4) if command[-4:] in ("rike", "mark") else 0)
    if dice.random() < 0.1:
        count = dice.randrange(5)
    if command == "which" and dice.random() < 0.9:
        return [dice.choice(("other", "plan", "hard", "link", "nowhere"))]
    return [number() for _ in range(count)]


def command_line(dice):
    """The command line without -o, and the output or None."""
    command = dice.choice(COMMANDS if dice.random() < 0.6 else TABLES)
    file = dice.choice(("plan",) * 40 + ("link", "within/far", "-", "nowhere", "within"))
    words = [command, file] + words_of(dice, command)
    if command in ("build", "districts", "outlets") and dice.random() < 0.6:
        words.append("--table")
    if dice.random() < 0.08:
        words.insert(dice.randrange(len(words) + 1), dice.choice(OPTIONS))
    if dice.random() < 0.05:
        words.insert(dice.randrange(len(words) + 1), dice.choice(NUMBERS + ["", "\udcff%s%n"]))
    if dice.random() < 0.05:
        del words[dice.randrange(len(words))]
    usual = ("plan", "plan", "other", "new")
    if not set(words) & set(TABLES + ["--table"]) and dice.random() < 0.7:
        usual = ("other", "new", "new", "dangling")
    odd = ("hard", "link", "within/far", "dangling", "lost", "loop", "within", "nowhere/new",
           "full", "null", "stdout", "-", "", None)
    return words, dice.choice(usual if dice.random() < 0.7 else odd)


def tree(folder):
    """Each name in a folder: the bytes of a file, what a link names, and the mode."""
    found = {}
    for at, folders, files in os.walk(folder):
        for name in files + folders:
            path = os.path.join(at, name)
            key = os.path.relpath(path, folder)
            if os.path.islink(path):
                found[key] = os.readlink(path)
            elif os.path.isfile(path):
                with open(path, "rb") as file:
                    found[key] = (file.read(), os.stat(path).st_mode)
            else:
                found[key] = None
    return found


def run(star, words, folder, stdin, limit=None, kill=None):
    """Runs the console in a folder: its status, standard output, and messages."""
    limited = lambda: resource.setrlimit(resource.RLIMIT_FSIZE, (limit, limit))
    done = subprocess.Popen(star + words, cwd=folder, stdin=stdin or subprocess.DEVNULL,
                            stdout=subprocess.PIPE, stderr=subprocess.PIPE, env=ENVIRONMENT,
                            preexec_fn=limited if limit else None)
    if kill:
        time.sleep(kill[1])
        done.send_signal(kill[0])
    out, said = done.communicate()
    return done.returncode, out, said


def target_of(folder, output):
    """The name in the folder that an output stands for; None for one outside it or none."""
    if not output or output in ("full", "null", "stdout", "-"):
        return None
    path = os.path.realpath(os.path.join(folder, output))
    return os.path.relpath(path, folder) if not os.path.isdir(path) else None


def place(words, output, dice):
    """The command line with -o at a random place behind the command."""
    option = ["-o", output] if dice.random() < 0.8 or not output else ["-o" + output]
    at = dice.randrange(1, len(words) + 1) if words else 0
    return words[:at] + option + words[at:]


def comments(text):
    """The comments in the lines of a table, in order."""
    lines = text.replace(b"\r\n", b"\n").replace(b"\r", b"\n").split(b"\n")
    return [line.split(b"#", 1)[1] for line in lines if b"#" in line]


def judged(words, output, plain, before, after, done, target, killed):
    """What is wrong with a case; None for nothing."""
    status, out, said = done
    if plain[0] not in range(6) or b"ERROR: " in plain[2] or b"runtime error" in plain[2]:
        return "a fault without -o"
    if not killed and (status not in range(6) or b"ERROR: " in said or b"runtime error" in said):
        return "a fault"
    left = {k: v for k, v in after.items() if k != target and (k in before or killed != "KILL")}
    if left != {k: v for k, v in before.items() if k != target}:
        return "other files are not as they were"
    was, now = before.get(target), after.get(target)
    if target and now != was:
        if status in (3, 4) or (status == 5 and not killed):
            return "the file is changed, and the status is %d" % status
        if now is None or now[0] != plain[1]:
            return "the file is not whole"
        if was and now[1] != was[1]:
            return "the file has another mode"
    told = "--help" in words or "-h" in words # on standard output
    if target and status in (0, 1) and plain[0] == status and now and not told:
        if now[0] != plain[1]:
            return "the file is not written"
    if words[:1] and words[0] in TABLES[:-1] and words[0] not in ("add", "merge") and status == 0:
        if target and was and now != was and comments(now[0]) != comments(before["plan"][0]):
            return "comments are lost" if not before["plan"][0].startswith(b"33D") else None
    return None


def without_object(words):
    """The command line that writes a file to standard output; with --json it is an object."""
    writes = words[:1] and words[0] in TABLES[1:]
    return [word for word in words if word != "--json"] if writes else words


def case(number, seed, star, room):
    """Runs one case: whether it is right, and what came of it or what is wrong."""
    dice = random.Random("%d %d" % (seed, number))
    folder = os.path.join(room, str(number))
    fill(dice, folder)
    words, output = command_line(dice)
    before, target = tree(folder), target_of(folder, output)
    stdin = open(folder + "/plan", "rb") if "-" in words else None
    plain = run(star, without_object(words), folder, stdin)
    if stdin:
        stdin.seek(0)
    untouched = tree(folder) == before
    limit = dice.choice((None, None, None, None, None, 1, 100, 4096))
    kill, killed = None, None
    if dice.random() < 0.15:
        killed = dice.choice(("KILL", "TERM", "INT"))
        kill = (getattr(signal, "SIG" + killed), dice.random() * 0.03)
    line = words if output is None else place(words, output, dice)
    done = run(star, line, folder, stdin, limit, kill)
    after = tree(folder)
    wrong = judged(words, output, plain, before, after, done, target, killed)
    if not untouched:
        wrong = "a file is changed without -o"
    if stdin:
        stdin.close()
    if not wrong:
        shutil.rmtree(folder)
        if done[0] < 0:
            return True, "ended by a signal"
        changed = target and after.get(target) != before.get(target)
        return True, "replaced" if changed else "status %d and as it was" % done[0]
    shown = (number, seed, wrong, line, done, plain)
    return False, "case %d (seed %d): %s\n  star %s\n  %r\n  %r" % shown


def part(numbers, seed, star, room):
    return [case(number, seed, star, room) for number in numbers]


def main():
    count, seed, star = int(sys.argv[1]), int(sys.argv[2]), sys.argv[3:]
    room = os.path.realpath(tempfile.mkdtemp())
    with multiprocessing.Pool(2) as pool:
        size = 50
        parts = [range(k, min(k + size, count)) for k in range(0, count, size)]
        found = pool.starmap(part, [(numbers, seed, star, room) for numbers in parts])
    results = [result for some in found for result in some]
    wrong = [text for right, text in results if not right]
    for text in wrong[:10]:
        print(text)
    came = collections.Counter(text for right, text in results if right)
    print("outputs: " + ", ".join("%d %s" % (came[text], text) for text in sorted(came)))
    shutil.rmtree(room)
    print("%d passed, %d failed" % (count - len(wrong), len(wrong)))
    sys.exit(len(wrong) != 0)


if __name__ == "__main__":
    main()
