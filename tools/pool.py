#!/usr/bin/env python3
"""pool.py SURFACES < CALLS > ANSWERS: answers calls as the program `pool` does, by the pool of lib/pool.py.

docs/POOL.md has the form of the files. Each answer is written as soon as its call is whole. Status 2: SURFACES is no
number from 1 to 64 (refusal 20), or an end can't be read or written, which standard error says.
"""
import os
import sys

from lib import calls, pool, script


def say(words):
    try:
        os.write(2, f"pool: {words}\n".encode())
    except OSError:
        pass
    return 2


def pool_of(words):
    """A pool of as many surfaces as the argument says, or none."""
    made = pool.Pool()
    good = len(words) == 1 and words[0].isascii() and words[0].isdecimal() and made.make(int(words[0])) == 0
    return made if good else None


class Input:
    """Standard input, block by block; what can't be read is kept as `failed`."""

    def __init__(self):
        self.held, self.failed = b"", False

    def read(self, size):
        while len(self.held) < size:
            try:
                more = os.read(0, 65536)
            except OSError:
                self.failed, more = True, b""
            if not more:
                break
            self.held += more
        found, self.held = self.held[:size], self.held[size:]
        return found


def write(data):
    try:
        while data:
            data = data[os.write(1, data):]
    except OSError:
        return False
    return True


def main(words):
    made = pool_of(words)
    if made is None:
        return say("20: SURFACES must be a number from 1 to 64")
    source = Input()
    for call in calls.whole(source):
        if not write(pool.answer_to(made, call)):
            return say("standard output can't be written")
    return say("standard input can't be read") if source.failed else 0


if __name__ == "__main__":
    script.helps(__doc__)
    script.filters()
    sys.exit(main(sys.argv[1:]))
