"""Recordings as text: records from a fresh session, each with the reply that document 01 asks for.

A recording is a line `recording NAME: what it shows`, then for each record a line `> RECORD` and a line `< REPLY`
(records.py has their form). A line that starts with '#' is a comment.
"""
import pathlib
import re

from . import model, records

ROOT = pathlib.Path(__file__).resolve().parents[2]
FOLDER = ROOT / "recordings"
EXAMPLES, BROKEN, VECTORS, FROM_RUST = (FOLDER / name for name in ("examples", "broken", "vectors", "from-rust"))


class Recording:
    def __init__(self, name, where):
        self.name, self.where = name, where
        self.said, self.answered = [], []


def take_line(found, line, where):
    """One line of a file into the recordings found so far."""
    if line.startswith("recording "):
        name, colon, shows = line[len("recording "):].partition(":")
        if not re.fullmatch(r"[a-z0-9-]+", name) or not shows.strip() or name in [r.name for r in found]:
            raise records.Bad("a recording needs a new name and what it shows")
        found.append(Recording(name, where))
    elif not found or line[:2].strip() not in (">", "<"):
        raise records.Bad("no recording, record or reply")
    elif (line[0] == ">") != (len(found[-1].said) == len(found[-1].answered)):
        raise records.Bad("records and replies do not take turns")
    elif line[0] == ">":
        found[-1].said.append(records.record_bytes(records.record_of_text(line[1:])))
    else:
        found[-1].answered.append(records.reply_bytes(records.reply_of_text(line[1:])))


def read(folder):
    """The recordings of all text files of a folder, in the order of their names."""
    found = []
    for path in sorted(folder.glob("*.txt")):
        for place, line in enumerate(path.read_text().splitlines(), 1):
            if not line.strip() or line.startswith("#"):
                continue
            try:
                take_line(found, line, f"{path.name}:{place}")
            except records.Bad as bad:
                raise records.Bad(f"{path.name}:{place}: {bad}") from None
    for recording in found:
        if len(recording.said) != len(recording.answered):
            raise records.Bad(f"{recording.where}: the last record has no reply")
    return found


def halves(path):
    """A text's recordings as (name, records, replies), in bytes. Records and replies need not take turns, so a broken
    recording is taken too; one without a name has its file's."""
    found = []
    for place, line in enumerate(path.read_text().splitlines(), 1):
        name = re.match(r"recording ([a-z0-9-]+):", line)
        if name or (line[:1] in (">", "<") and not found):
            found.append((name[1] if name else path.stem, [], []))
        try:
            if line.startswith(">"):
                found[-1][1].append(records.record_bytes(records.record_of_text(line[1:])))
            elif line.startswith("<"):
                found[-1][2].append(records.reply_bytes(records.reply_of_text(line[1:])))
            elif line.strip() and not line.startswith(("#", "recording ", "broken at reply ")):
                raise records.Bad("no recording, record or reply")
        except records.Bad as bad:
            raise records.Bad(f"{path}:{place}: {bad}") from None
    return [(name, b"".join(said), b"".join(answered)) for name, said, answered in found]


def in_stream(recording):
    """Whether its records can stand in a stream."""
    return all(records.is_whole(said) for said in recording.said)


def shown(data, of_bytes, to_text):
    return to_text(of_bytes(data) or {"kind": "raw", "bytes": data})


class Words:
    """How a recording's messages are called and shown."""
    said, answered = "record", "replies"

    @staticmethod
    def said_text(data):
        return shown(data, records.record_of, records.record_text)

    @staticmethod
    def answered_text(data):
        return shown(data, records.reply_of, records.reply_text)


def differences(recording, answered, words=Words):
    """Where the replies that a recording asks for are not these, as lines of text."""
    for place, (said, asked) in enumerate(zip(recording.said, recording.answered), 1):
        found = answered[place - 1] if place <= len(answered) else b""
        if found != asked:
            yield f"{recording.name}, {words.said} {place}: {words.said_text(said)}"
            yield f"  expected {words.answered_text(asked)}"
            yield f"  answered {words.answered_text(found)}"
    if len(answered) > len(recording.said):
        yield f"{recording.name}: {len(answered) - len(recording.said)} {words.answered} too many"


def summary(found, checks, what):
    """What the checks find in some recordings, and a last line with how many there are; and the status."""
    lines = [line for recording in found for check in checks for line in check(recording)]
    count, end = sum(len(r.said) for r in found), "not as they should be" if lines else "the model agrees"
    print("\n".join(lines + [f"{len(found)} {what[0]}, {count} {what[1]}: {end}"]))
    return 1 if lines or not found else 0


def model_differences(recording):
    """The same, of model.py."""
    session = model.Session()
    return differences(recording, [session.step(said)[1] for said in recording.said])
