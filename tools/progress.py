#!/usr/bin/env python3
"""How far a long run is: '37 of 80 crates'.

usage: rt ci | progress.py crates            passes the lines on, and says after each crate how many
                                             have ended
       make outside | progress.py outside    the same of the tests from outside, with the minutes
                                             that are left
"""
import os
import re
import sys
import time

import crates

SECONDS = 608  # of the tests from outside, on four processors
ENDED = re.compile(r'(?:== (\w+)|rt: (\w+) is kept: .*)$')
COUNT = re.compile(r'\d+ passed, \d+ failed$')


def sentence(minutes):
    if round(minutes) < 1:
        return 'less than a minute left'
    return f"some {round(minutes)} minute{'' if round(minutes) == 1 else 's'} left"


def processors():
    """The jobs that are done at once: RT_JOBS, or the processors, at most 4."""
    return int(os.environ.get('RT_JOBS') or min(4, len(os.sched_getaffinity(0))))


def crates_ended(lines, pattern='gate: {number} of {of} crates'):
    """Passes on what `rt ci` or `rt all check` says, and tells of each crate that has ended."""
    of, ended = set(crates.listed()), set()
    for line in lines:
        yield line
        found = ENDED.match(line)
        name = found and (found[1] or found[2])
        if name in of and name not in ended:
            ended.add(name)
            print(pattern.format(name=name, number=len(ended), of=len(of)), flush=True)


def outside():
    """Follows the tests from outside; nothing is said after their last line, which counts all."""
    began, counted = time.monotonic(), None
    for line in sys.stdin:
        if counted:
            left = (SECONDS - (time.monotonic() - began)) / 60
            print(f'gate: the tests from outside, {sentence(left)}', flush=True)
        print(line, end='', flush=True)
        counted = COUNT.match(line)


def main(words):
    sys.stdin.reconfigure(errors='replace')
    if words == ['outside']:
        outside()
    elif words == ['crates']:
        for line in crates_ended(sys.stdin):
            print(line, end='', flush=True)
    else:
        sys.exit(__doc__)


if __name__ == '__main__':
    main(sys.argv[1:])
