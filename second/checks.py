"""Counts what the tests check, and prints what is not as it should be."""

import sys

checks = 0
failures = 0


def same(what, got, wanted):
    global checks, failures
    checks += 1
    if got != wanted:
        failures += 1
        print("%s: got %r, wanted %r" % (what, got, wanted))


def finish(about):
    print("%s: %d checks, %d failed" % (about, checks, failures))
    sys.exit(1 if failures else 0)
