#!/usr/bin/env python3
"""Draws a recording as a picture: which picture lies on which surface, from when to when, and in which state.

    timeline.py RECORDS REPLIES > PICTURE.svg
    timeline.py --pool CALLS ANSWERS > PICTURE.svg

There is a row for each surface, and time goes to the right by the number of the record, from 1. docs/OPERATING.md says
how to read it. All is told from the two files, whoever wrote them, by a program of which nothing is proved.
Status: 0 drawn; 1 the replies contradict the records, or one can't be read: it is drawn up to there, and standard error
says which reply; 2 an error, which standard error names.
"""
import argparse
import os
import pathlib
import re
import signal
import sys

from lib import drawing, exchanges, status, timeline
from lib.source import Source, Unread

NAME = "timeline.py"
# on a terminal it is said how far the files are read, each so many records
OFTEN = 200000


def limits(words):
    """FIRST:LAST as numbers."""
    found = re.fullmatch(r"([0-9]+):([0-9]+)", words)
    first, last = (int(found[1]), int(found[2])) if found else (0, 0)
    if not 1 <= first <= last:
        raise argparse.ArgumentTypeError(f"'{words}' is not FIRST:LAST, two numbers from 1 on")
    if last - first >= drawing.MOST:
        raise argparse.ArgumentTypeError(f"'{words}' are more than {drawing.MOST} records")
    return first, last


def arguments(words):
    parser = argparse.ArgumentParser(prog=NAME, description=__doc__, usage=argparse.SUPPRESS,
                                     formatter_class=argparse.RawDescriptionHelpFormatter)
    parser.add_argument("files", nargs=2, metavar="FILE")
    parser.add_argument("--range", type=limits, metavar="FIRST:LAST", dest="limits",
                        help=f"draw only these records; at most {drawing.MOST} are drawn at once")
    parser.add_argument("--lists", action="store_true", help="draw which pictures each lists record names")
    parser.add_argument("--pool", action="store_true", help="the files are calls of a pool and their answers")
    return parser.parse_args(words)


class Outside(Exception):
    """What is asked for can't be drawn."""


def read(asked):
    """The timeline of the two files."""
    kind, found = timeline.Timeline, timeline.pairs
    if asked.pool:
        kind, found = timeline.PoolTimeline, exchanges.exchanges
    shown, name = kind(*asked.limits or ()), asked.files[0]
    for taken in timeline.read(shown, found(*[Source(file) for file in asked.files])):
        if taken % OFTEN == 0 and os.isatty(2):
            status.say(NAME, f"{taken} {shown.words[0]}s read")
        if taken > drawing.MOST and not asked.limits:
            raise Outside(f"{name} has more than {drawing.MOST} {shown.words[0]}s: give --range FIRST:LAST")
    if asked.limits and shown.count < shown.first and not shown.fault:
        raise Outside(f"{name} has {shown.count} {shown.words[0]}s, and none from {shown.first} on")
    return shown


def main(words):
    signal.signal(signal.SIGINT, signal.SIG_DFL)
    closed = 1 in status.hold_ends()
    asked = arguments(words)
    try:
        shown = read(asked)
    except (Unread, Outside) as bad:
        status.say(NAME, bad)
        return 2
    drawn = drawing.svg(shown, pathlib.Path(asked.files[0]).name, asked.lists)
    taken = not closed and status.passed(1, drawn.encode())
    return timeline.ended(NAME, shown, asked.files[1], taken, "; drawn up to there")


if __name__ == "__main__":
    sys.exit(main(sys.argv[1:]))
