#!/usr/bin/env python3
"""calls.py FOLDER: writes each recording of recordings/vectors and recordings/examples as a file of calls,
FOLDER/vectors-NAME.calls or FOLDER/examples-NAME.calls, and each of recordings/pool as FOLDER/NAME.pool.

A file of calls has, for each call, the record's length as a u32, the record, the length of the reply that is expected
as a u32, and that reply; little-endian. What is expected is what the text says. A file of a pool's calls has the number
of its surfaces as a u32, and then in the same form each call and its answer, as docs/POOL.md lays them out.
"""
import pathlib
import struct
import sys

sys.path.insert(0, str(pathlib.Path(__file__).resolve().parent.parent / "tools"))
from lib import pool_recordings, records, recordings, script


def number(n):
    return struct.pack("<I", n)


def counted(data):
    return number(len(data)) + data


def calls_of(recording):
    """Each of its calls, and what is expected."""
    pairs = zip(recording.said, recording.answered, strict=True)
    return b"".join(counted(said) + counted(answered) for said, answered in pairs)


def write_sessions(folder):
    for source in [recordings.VECTORS, recordings.EXAMPLES]:
        for recording in recordings.read(source):
            (folder / f"{source.name}-{recording.name}.calls").write_bytes(calls_of(recording))


def write_pools(folder):
    for recording in pool_recordings.read():
        (folder / f"{recording.name}.pool").write_bytes(number(recording.surfaces) + calls_of(recording))


def main(folder):
    try:
        write_sessions(folder)
        write_pools(folder)
    except records.Bad as bad:
        sys.exit(f"calls.py: {bad}")


if __name__ == "__main__":
    script.helps(__doc__)
    if len(sys.argv) != 2:
        print(__doc__, file=sys.stderr)
        sys.exit(2)
    main(pathlib.Path(sys.argv[1]))
