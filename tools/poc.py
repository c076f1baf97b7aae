#!/usr/bin/env python3
"""The POC of each picture of a recording, and whether it is the one that the rule of docs/POC.md gives.

    poc.py RECORDS REPLIES
    poc.py --pool CALLS ANSWERS

writes a line for each accepted begin: the serial, M, lsb, what the POC goes on from, and the POC, as

    picture 0: M 16, lsb 0, IRAP with NoRaslOutputFlag: POC 0
    picture 1: M 16, lsb 12, previous 0: POC -4
    picture 2: M 32, lsb 13, none before: POC 13

All is told from the two files, whoever wrote them, in constant memory, by a program of which nothing is proved;
lib/poc.py has the rule. --pool: the files are calls of a pool and their answers (docs/POOL.md).
Status: 0 every POC is the rule's; 1 one is not, or a reply can't be read, is not one to its record or has none:
standard error names it, and what stands behind it is not read; 2 an error, which standard error names.
"""
import signal
import sys

from lib import exchanges, ledger, poc, script, status, timeline
from lib.source import Source, Unread

NAME = "poc.py"
IRAP = range(16, 22)


def origin(previous, record, reply):
    """What the POC of a picture goes on from, in words."""
    if record["nal"] in IRAP and reply["flags"] & 1:
        return "IRAP with NoRaslOutputFlag"
    return "none before" if previous is None else f"previous {previous}"


def unruled(m, record):
    """Why the rule says nothing of a begin that was accepted; none where it does."""
    if m == 1:
        return "a begin was accepted before any configure"
    lsb = record["lsb"]
    return f"a begin was accepted with lsb {lsb}, which is not below M, {m}" if lsb >= m else None


class Pocs:
    """The POCs of a recording, one after the other, as lib/timeline.py reads files: `line` is that of the last exchange
    taken, empty where it is no accepted begin."""

    def __init__(self, words=timeline.Timeline.words):
        self.words, self.count, self.fault = words, 0, None
        self.notes, self.line = poc.NOTHING, ""

    def take(self, data, answer, _=None):
        """The next record and its reply, as bytes; raises ledger.Fault."""
        record, reply = ledger.together(data, answer)
        m, _, previous = self.notes
        self.notes, given = poc.told(self.notes, data, answer)
        self.line = ""
        if given is not None:
            wrong = unruled(m, record) or poc.wrong(answer, given)
            ledger.fault_if(wrong, wrong)
            begun = f"picture {reply['serial']}: M {m}, lsb {record['lsb']}"
            self.line = f"{begun}, {origin(previous, record, reply)}: POC {reply['poc']}\n"
        self.count += 1


def written(shown, found):
    """Whether standard output took a line for each accepted begin, as far as the files go."""
    for _ in timeline.read(shown, found):
        if not status.passed(1, shown.line.encode()):
            return False
    return True


def main(words):
    kind, found = timeline.Timeline, timeline.pairs
    if words[:1] == ["--pool"]:
        kind, found, words = timeline.PoolTimeline, exchanges.exchanges, words[1:]
    if len(words) != 2:
        print(__doc__, file=sys.stderr)
        return 2
    closed, shown = 1 in status.hold_ends(), Pocs(kind.words)
    try:
        taken = not closed and written(shown, found(*map(Source, words)))
    except Unread as bad:
        status.say(NAME, bad)
        return 2
    return timeline.ended(NAME, shown, words[1], taken)


if __name__ == "__main__":
    script.helps(__doc__)
    script.filters()
    signal.signal(signal.SIGINT, signal.SIG_DFL)
    sys.exit(main(sys.argv[1:]))
