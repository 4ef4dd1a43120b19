"""Runs readstp on every text of the sample and compares what it prints with the plain reader.
usage: run.py PROGRAM [WORD..]   ends in one line 'N passed, M failed'
"""
import random
import resource
import subprocess
import sys
import tempfile
import time

from generate import missing, sample
from known import KNOWN
from reader import printed, read

STACK, PATIENCE, SHOWN = 8 << 20, 60, 10
passed = failed = 0


def tell(ok, what):
    global passed, failed
    if ok:
        passed += 1
        return
    failed += 1
    if failed <= SHOWN:
        print(what, file=sys.stderr)


def small_stack():
    resource.setrlimit(resource.RLIMIT_STACK, (STACK, resource.getrlimit(resource.RLIMIT_STACK)[1]))


def run_whole(program, text, limit=None):
    """The text as a file on standard input."""
    with tempfile.TemporaryFile() as file:
        file.write(text)
        file.seek(0)
        done = subprocess.run(program, stdin=file, capture_output=True, timeout=PATIENCE, preexec_fn=limit)
    return done.returncode, done.stdout, done.stderr


def run_pieces(program, text, pieces, limit=None):
    """The text through a pipe, piece by piece, with a pause after each."""
    child = subprocess.Popen(program, stdin=subprocess.PIPE, stdout=subprocess.PIPE, stderr=subprocess.PIPE, preexec_fn=limit)
    try:
        for piece in pieces(text):
            child.stdin.write(piece)
            child.stdin.flush()
            time.sleep(0.002)
    except BrokenPipeError:
        pass  # the program may stop reading a text that is too long
    try:
        out, err = child.communicate(timeout=PATIENCE)
    except subprocess.TimeoutExpired:
        child.kill()
        raise
    return child.returncode, out, err


def pieces_of(r, most):
    def pieces(text):
        k = 0
        while k < len(text):
            size = r.randint(1, most)
            yield text[k:k + size]
            k += size
    return pieces


def compare(name, text, answer, run, *words):
    """The program prints the plain reader's answer, nothing else, and ends with status 0 for a table and 1 for a refusal."""
    try:
        status, out, err = run(*words)
    except subprocess.TimeoutExpired:
        status, out, err = "none", b"", b"did not end"
    expected = printed(answer)
    tell((status, out, err) == (int(expected.startswith(b"Refused")), expected, b""),
         f"{name}: status {status}, printed {out[:60]!r}, expected {expected[:60]!r}; {err[:60]!r}; {len(text)} bytes: {text[:200]!r}")


def main(program):
    texts = sample()
    answers = [read(t.text) for t in texts]
    for text, expected in KNOWN:
        tell(printed(read(text)).decode() == expected, f"the plain reader: {text[:200]!r} is not {expected[:60]!r}")
    lacks = missing(texts, answers)
    tell(not lacks, "; ".join(lacks))
    r = random.Random(7)
    for k, (t, a) in enumerate(zip(texts, answers)):
        limit = small_stack if t.kind == "deepest" else None
        compare(t.kind, t.text, a, run_whole, program, t.text, limit)
        if len(t.text) < 200 and k % 37 == 0:
            compare(t.kind + ", in pieces", t.text, a, run_pieces, program, t.text, pieces_of(r, r.choice([1, 3, 20])))
        elif len(t.text) > 60000 and (k % 7 == 0 or limit):
            compare(t.kind + ", in pieces", t.text, a, run_pieces, program, t.text, pieces_of(r, r.choice([3000, 5000, 70000])), limit)
    print(f"{passed} passed, {failed} failed")
    return failed != 0


if __name__ == "__main__":
    sys.exit(main(sys.argv[1:]))
