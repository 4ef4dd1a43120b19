"""What tests of the console in Python have in common: a call of the program that the command line names, and the count of what is wrong."""
import subprocess, sys

STAR = sys.argv[1:]
faults = []


def star(text, command, *words):
    """What a command says of a text on standard input: the output, the messages, the status."""
    done = subprocess.run(STAR + [command, "-", *words], input=text, capture_output=True, text=True)
    return done.stdout, done.stderr, done.returncode


def fault(*what):
    faults.append(what)
    print(*what)
