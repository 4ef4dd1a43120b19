"""The ten tasks with the package star. usage: tasks_star.py TABLE"""
import sys

from timed import timed

# set-up
import star
t = star.Table.read(sys.argv[1])
plan = t.plan
other = t.build().rows


# task least
def least():
    return t.build().total


# task check
def check():
    t.plan = plan
    return t.check().passed


# task only
def only():
    t.build()
    return t.check().only


# task exchange
def exchange():
    t.plan = plan
    return t.best().exchange.saving


# task quote
def quote():
    return t.quote(7, 9999).after


# task breaking
def breaking():
    return t.breaking(7)


# task path
def path():
    t.plan = plan
    return len(t.path(1, 40))


# task which
def which():
    return t.which(plan, other).which


# task mend
def mend():
    t.plan = set(plan) ^ {1}
    return t.mend().total


# task outlets
def outlets():
    return t.outlets(1, 4).total


# end
for task in (least, check, only, exchange, quote, breaking, path, which, mend, outlets):
    timed(task)
