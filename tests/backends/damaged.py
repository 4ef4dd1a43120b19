"""For each door a library with a changed bit in its code, which the comparison has to find.
usage: damaged.py PROGRAM LIBRARY OTHER   Ends in one line 'N passed, M failed'.

PROGRAM is backends, OTHER the library that is damaged. The code is that of the door's function for
C, all of which every call runs. Some bits change nothing, such as one of a padding byte: two
of three have to be found.
"""
import os
import random
import re
import subprocess
import sys
import tempfile


def functions(path):
    """The places and sizes of the doors' functions: their addresses are places in the file."""
    said = subprocess.run(["nm", "-D", "-S", path], stdout=subprocess.PIPE, check=True, text=True)
    found = re.findall(r"^(\w+) (\w+) T (star_\w+)$", said.stdout, re.M)
    return [(name, int(at, 16), int(size, 16)) for at, size, name in found]


def found(program, library, damaged):
    try:
        run = subprocess.run([program, "5", "3", "-", library, damaged], timeout=60,
                             stdout=subprocess.DEVNULL, stderr=subprocess.DEVNULL)
        return run.returncode != 0
    except subprocess.TimeoutExpired:
        return True


def main():
    program, library, other = sys.argv[1:]
    rnd, times = random.Random(1), 0
    doors = functions(other)
    with open(other, "rb") as file:
        whole = file.read()
    with tempfile.TemporaryDirectory() as folder:
        path = os.path.join(folder, "damaged.so")
        for _, at, size in doors:
            wrong = bytearray(whole)
            wrong[at + rnd.randrange(size)] ^= 1 << rnd.randrange(8)
            with open(path, "wb") as file:
                file.write(wrong)
            times += found(program, library, path)
    print("%d of %d libraries with a changed bit are found" % (times, len(doors)))
    good = len(doors) > 0 and 3 * times >= 2 * len(doors) and not found(program, library, other)
    print("%d passed, %d failed" % (good, not good))
    sys.exit(not good)


main()
