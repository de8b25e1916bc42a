#!/usr/bin/env python3
"""Checks docs/FORMAT.md: its hexadecimal against samples/, the reader at its end against files of a plain layout and against the engine.

Argument: the seed of the files that are held to the engine.
The last line is 'N passed, M failed'; the status is 0 only if nothing failed.
"""
import faulthandler
import signal
import sys
import tempfile

sys.dont_write_bytecode = True  # before the modules beside this one are loaded

import beside_engine
from body_errors import bodies
from byte_changes import body_bytes, byte_changes, lengths
from counting import Tally, failure
from further_cases import large_pictures, named_cases
from header_errors import counts, extents, free_counts, kinds_and_settings, order
from lister_output import lister
from lookups import coordinates, lookups, pointed_lookups
from page import Page
from pictures_by_chance import random_pictures
from samples import hexadecimal, reader_form, sample_files
from small_pictures import all_patterns, small_bodies

SECONDS = 120
GROUPS = [hexadecimal, reader_form, sample_files, byte_changes, body_bytes, lengths, kinds_and_settings, extents, counts, free_counts,
          bodies, order, small_bodies, all_patterns, random_pictures, named_cases, coordinates, lookups, pointed_lookups, lister,
          large_pictures, beside_engine.files]


class OutOfTime(BaseException):
    """Not an Exception, so that no case takes it for an answer of the reader."""


def out_of_time(*_):
    raise OutOfTime("more than %d seconds" % SECONDS)


def run_group(group, page):
    """Counts the cases of one group; what it raises is one more failure."""
    passed, failed = Tally.passed, Tally.failed
    try:
        group(page)
    except Exception as error:
        failure("%s: %s" % (type(error).__name__, error))
    finally:
        print("%s: %d passed, %d failed" % (group.__doc__, Tally.passed - passed, Tally.failed - failed), flush=True)


def main():
    if len(sys.argv) > 1:
        beside_engine.seed = int(sys.argv[1])
    signal.signal(signal.SIGALRM, out_of_time)
    signal.alarm(SECONDS)
    faulthandler.dump_traceback_later(SECONDS + 10, exit=True)  # for a call that never comes back to Python
    try:
        with tempfile.TemporaryDirectory() as folder:
            page = Page(folder)
            for group in GROUPS:
                run_group(group, page)
    except (Exception, OutOfTime) as error:
        failure("%s: %s" % (type(error).__name__, error))
    print("%d passed, %d failed" % (Tally.passed, Tally.failed))
    sys.exit(0 if Tally.failed == 0 else 1)


if __name__ == "__main__":
    main()
