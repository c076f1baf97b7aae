#!/usr/bin/env python3
"""Packing what was unpacked gives the same bytes: on random bytes, and on whole records and replies with damage. What
`records.py split` writes of each text of recordings/ is its bytes."""
import pathlib
import random
import struct
import subprocess
import sys
import tempfile

TOOLS = pathlib.Path(__file__).resolve().parents[2] / "tools"
sys.path.insert(0, str(TOOLS))
from lib import records, recordings, script

FORMS = {
    "records": (records.record_of, records.record_text, records.record_of_text, records.record_bytes),
    "replies": (records.reply_of, records.reply_text, records.reply_of_text, records.reply_bytes),
}


def noise(rng, most):
    return rng.choice([rng.randbytes(rng.randrange(most)), bytes(rng.randrange(most)), b"\xff" * rng.randrange(most)])


def record(rng):
    kind = rng.randrange(1, 9)
    if kind == 2:
        counts = [rng.randrange(3) for _ in range(3)]
        body = rng.randbytes(2) + bytes([rng.choice([0, 1, 3, 4, 255])]) + rng.randbytes(6) + bytes(counts)
        for _ in range(counts[0] + counts[1]):
            body += rng.randbytes(4) + bytes([rng.choice([0, 1, 255])])
        for _ in range(counts[2]):
            body += rng.randbytes(2) + bytes([rng.choice([0, 1, 2, 3, 4, 255])]) + rng.randbytes(4)
    else:
        a0, a1 = rng.randrange(4), rng.randrange(4)
        limits = rng.randbytes(6)
        lists = bytes([rng.choice([0, 1, 2, 9]), rng.choice([3, 7, 255]), a0, a1]) + rng.randbytes(a0 + a1)
        body = {1: limits, 3: lists}.get(kind, b"")
    return struct.pack("<HH", len(body), kind) + body


def reply(rng):
    def run(size):
        count = rng.randrange(4)
        return bytes([count]) + rng.choice([rng.randbytes(size * count), b"\xff" * (size * count)])

    kind = rng.choice([257, 258, 259, 260, 264, 511])
    if kind == 511 or rng.randrange(4) == 0:
        return struct.pack("<HHH", 2, kind, rng.choice([1, 13, 65535]))
    counts = [rng.randrange(3) for _ in range(5 if kind == 258 else 2)]
    members = bytes(counts) + rng.choice([rng.randbytes(4 * sum(counts)), b"\xff" * (4 * sum(counts))])
    head = rng.randbytes(4) + bytes([rng.choice([0, 7, 15, 16, 255])]) + rng.randbytes(4)
    tail = run(12) + run(4) + run(4)
    body = {258: head + members + tail, 259: members}.get(kind, tail)
    return struct.pack("<HHH", 2 + len(body), kind, 0) + body


def damaged(rng, data):
    place = rng.randrange(len(data))
    return rng.choice([data[:place], data[:place] + rng.randbytes(1) + data[place + 1:], data + rng.randbytes(1)])


def split(texts):
    """What `records.py split` writes of the texts of a folder: the bytes of each file."""
    with tempfile.TemporaryDirectory() as folder:
        for path in sorted(texts.glob("*.txt")):
            words = [sys.executable, str(TOOLS / "records.py"), "split", str(path), folder]
            assert subprocess.run(words, stdout=subprocess.DEVNULL, check=False).returncode == 0, path
        return {path.name: path.read_bytes() for path in pathlib.Path(folder).iterdir()}


def splits():
    """How many files `records.py split` writes; those of an example are the ones that stand beside it, and those of a
    vector are its records and replies."""
    beside = [*recordings.EXAMPLES.glob("*.records"), *recordings.EXAMPLES.glob("*.replies")]
    examples, vectors, broken = map(split, (recordings.EXAMPLES, recordings.VECTORS, recordings.BROKEN))
    assert examples == {path.name: path.read_bytes() for path in beside}
    for recording in recordings.read(recordings.VECTORS):
        assert vectors[f"{recording.name}.records"] == b"".join(recording.said), recording.name
        assert vectors[f"{recording.name}.replies"] == b"".join(recording.answered), recording.name
    names = {f"{path.stem}.{end}" for path in recordings.BROKEN.glob("*.txt") for end in ("records", "replies")}
    assert set(broken) == names
    return len(examples) + len(vectors) + len(broken)


def packs():
    """How many lines were unpacked and packed again, and how many of these were raw."""
    rng, raw, lines = random.Random(265), 0, 0
    for _ in range(5000):
        for made, form in ((record(rng), FORMS["records"]), (reply(rng), FORMS["replies"])):
            of_bytes, to_text, of_text, to_bytes = form
            assert of_bytes(made) is not None, made.hex(" ")
            for data in (made, damaged(rng, made), made + damaged(rng, made), noise(rng, 60)):
                text = records.unpack(data, of_bytes, to_text)
                assert records.pack(text, of_text, to_bytes) == data, data.hex(" ")
                lines += text.count(b"\n")
                raw += text.count(b"raw")
    return lines, raw


if __name__ == "__main__":
    script.helps(__doc__)
    print("{} lines, {} of them raw".format(*packs()))
    print(f"{splits()} files of records and replies split")
