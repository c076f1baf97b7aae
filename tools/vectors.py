#!/usr/bin/env python3
"""The recordings of recordings/vectors/*.txt: each reply that they ask for is well formed, and the model gives it
(status 1: some is not so).

    vectors.py

lib/recordings.py has the form of a recording. tests/programs/test_replay.py asks the proved program for the same
replies.
"""
import struct
import sys

from lib import recordings, records, script

REPLY_LIMIT = 512
MALFORMED = 511


def kind_at(data):
    return struct.unpack_from("<H", data, 2)[0] if len(data) >= 4 else 0


def faults(recording):
    """Replies that are no whole reply, are longer than a buffer must be, or answer another kind of record."""
    for place, (said, asked) in enumerate(zip(recording.said, recording.answered), 1):
        if records.reply_of(asked) is None or len(asked) > REPLY_LIMIT:
            yield f"{recording.name}, record {place}: no whole reply"
        elif kind_at(asked) not in (MALFORMED, 256 + kind_at(said)):
            yield f"{recording.name}, record {place}: a reply to another kind of record"


def main(arguments):
    if arguments:
        print(__doc__, file=sys.stderr)
        return 2
    try:
        found = recordings.read(recordings.VECTORS)
    except records.Bad as bad:
        print(f"vectors.py: {bad}", file=sys.stderr)
        return 2
    checks = (faults, recordings.model_differences)
    return recordings.summary(found, checks, ("recordings", "records"))


if __name__ == "__main__":
    script.helps(__doc__)
    sys.exit(main(sys.argv[1:]))
