"""Recordings of a pool as text, recordings/pool/NAME.txt: calls from a pool that was just made, each with the answer
that the documents ask for.

A file is a line `pool NAME, N surfaces: what it shows`, then for each call a line `> CALL` and a line `< ANSWER`
(calls.py has their form). A line that starts with '#' is a comment. NAME.calls and NAME.answers are the bytes.

recordings/pool/broken/NAME.txt has calls and answers with damage, for `ledger --pool`: a line `ledger kept` or
`ledger broken at reply N (part P)` with what is named behind it, a line `pool kept` or the line that is to be said of
the pool, and lines `> CALL` and `< ANSWER`, which need not pair.
"""
import re

from . import calls, pool, records, recordings

FOLDER = recordings.FOLDER / "pool"
BROKEN = FOLDER / "broken"
TITLE = r"pool ([a-z0-9-]+), ([0-9]+) surfaces?: (.+)"


class Recording:
    def __init__(self, name, surfaces, shows):
        self.name, self.surfaces, self.shows = name, surfaces, shows
        self.said, self.answered = [], []

    def files(self):
        """Each file of bytes, and what is to stand in it."""
        ends = (("calls", self.said), ("answers", self.answered))
        return [(FOLDER / f"{self.name}.{end}", b"".join(parts)) for end, parts in ends]


def titled(path, line):
    title = re.fullmatch(TITLE, line)
    if title is None or title[1] != path.stem:
        raise records.Bad("the first line names the pool, as its file is named, and how many surfaces it has")
    return Recording(title[1], int(title[2]), title[3])


def take_line(recording, line):
    sides = {">": (recording.said, calls.call_of_text), "<": (recording.answered, calls.answer_of_text)}
    turn = ">" if len(recording.said) == len(recording.answered) else "<"
    if line[:2].strip() != turn:
        raise records.Bad("calls and answers do not take turns")
    found, of_text = sides[turn]
    found.append(calls.to_bytes(of_text(line[1:].strip())))


def read_file(path):
    recording = None
    for place, line in enumerate(path.read_text().splitlines(), 1):
        try:
            if recording is None:
                recording = titled(path, line)
            elif line.strip() and not line.startswith("#"):
                take_line(recording, line)
        except records.Bad as bad:
            raise records.Bad(f"{path.name}:{place}: {bad}") from None
    if recording is None or len(recording.said) != len(recording.answered):
        raise records.Bad(f"{path.name}: the last call has no answer")
    return recording


def read():
    """All of them, in the order of their names."""
    return [read_file(path) for path in sorted(FOLDER.glob("*.txt"))]


class Words:
    """How a pool's messages are called and shown."""
    said, answered = "call", "answers"

    @staticmethod
    def said_text(data):
        return calls.call_text({"bytes": data})

    @staticmethod
    def answered_text(data):
        return calls.answer_text({"bytes": data})


def model_differences(recording):
    """The same, of pool.py."""
    made = pool.made(recording.surfaces)
    return recordings.differences(recording, [pool.answer_to(made, call) for call in recording.said], Words)


class Damaged:
    """What `ledger --pool` is to say of two files."""

    def __init__(self, path):
        self.name, self.ledger, self.pool, self.calls, self.answers = path.stem, None, None, b"", b""

    def take_line(self, line):
        if line.startswith("ledger "):
            self.ledger = line.removeprefix("ledger ")
        elif line.startswith("pool "):
            self.pool = "" if line == "pool kept" else f"{line}\n"
        elif line.startswith(">"):
            self.calls += calls.to_bytes(calls.call_of_text(line[1:].strip()))
        elif line.startswith("<"):
            self.answers += calls.to_bytes(calls.answer_of_text(line[1:].strip()))
        elif line and not line.startswith("#"):
            raise records.Bad(f"{self.name}: {line}")

    def is_said(self, text):
        """Whether this is what is to be said: the ledger's line, and the pool's."""
        line, _, rest = text.partition("\n")
        broken = re.fullmatch(r"broken at reply (\d+): .+ (\(part \d+\).*)", line)
        said = f"broken at reply {broken[1]} {broken[2]}" if broken else line.partition(":")[0]
        return (said, rest) == (self.ledger, self.pool)


def read_broken():
    found = []
    for path in sorted(BROKEN.glob("*.txt")):
        found.append(Damaged(path))
        for line in path.read_text().splitlines():
            found[-1].take_line(line)
    return found
