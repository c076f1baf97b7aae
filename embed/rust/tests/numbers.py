#!/usr/bin/env python3
"""numbers.py records|replies|damaged: what tools/lib/records.py reads in the recordings of recordings/vectors and
recordings/examples, as plain numbers, for the tests of the Rust crate.

One line for each different message: its bytes in hexadecimal, a colon, and its numbers or 'none' where it is not
well-formed; in front of entries stands how many there are. 'records' are those that are well-formed, 'replies' all, and
'damaged' each reply cut at every byte, and with each byte set to some others.
"""
import pathlib
import sys

sys.path.insert(0, str(pathlib.Path(__file__).resolve().parents[3] / "tools"))
from lib import records, recordings

TAIL = ["handed", "thrown", "released"]
BYTES = [0, 1, 2, 3, 16, 127, 128, 255]


def counted(entries):
    """How many there are, and the numbers of each."""
    return [len(entries)] + [n for entry in entries for n in (entry if isinstance(entry, tuple) else [entry])]


def fields(message, keys):
    """The numbers of these fields, one behind the other."""
    values = [message[key] for key in keys]
    return [n for value in values for n in (counted(value) if isinstance(value, list) else [value])]


def record_numbers(r):
    keys = {
        "configure": records.LIMITS,
        "begin": ["nal", "tid", "flags", "lsb", "surface", "neg", "pos", "lt"],
        "lists": ["type", "flags", "a0", "a1", "e0", "e1"],
    }
    return [records.KINDS.index(r["kind"]) + 1] + fields(r, keys.get(r["kind"], []))


def reply_numbers(r):
    of = {"begun": "begin", "lists": "lists"}.get(r["kind"]) or r["of"]
    kind = 511 if of == "?" else 257 + records.KINDS.index(of)
    keys = {
        "refused": [],
        "done": TAIL,
        "begun": ["poc", "flags", "serial"] + records.SETS + TAIL,
        "lists": ["l0", "l1"],
    }
    return [kind, r.get("number", 0)] + fields(r, keys[r["kind"]])


def damaged(data):
    """These bytes, cut and changed in every place."""
    yield from (data[:size] for size in range(len(data)))
    yield from (data[:i] + bytes([n]) + data[i + 1:] for i in range(len(data)) for n in BYTES)
    yield from (data + bytes([n]) for n in BYTES)


def line(data, read, numbers):
    found = read(data)
    return f"{data.hex()}: " + ("none" if found is None else " ".join(str(n) for n in numbers(found)))


def lines(what):
    found = [r for folder in [recordings.VECTORS, recordings.EXAMPLES] for r in recordings.read(folder)]
    said = sorted({data for r in found for data in r.said})
    answered = sorted({data for r in found for data in r.answered})
    if what == "records":
        return [line(data, records.record_of, record_numbers) for data in said if records.record_of(data)]
    if what == "damaged":
        answered = sorted({other for data in answered for other in damaged(data)})
    return [line(data, records.reply_of, reply_numbers) for data in answered]


def main(arguments):
    if arguments == ["--help"]:
        print(__doc__.strip())
        return 0
    if arguments not in (["records"], ["replies"], ["damaged"]):
        print(__doc__.strip(), file=sys.stderr)
        return 2
    print("\n".join(lines(arguments[0])))
    return 0


if __name__ == "__main__":
    sys.exit(main(sys.argv[1:]))
