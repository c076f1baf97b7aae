#!/usr/bin/env python3
"""Tests of the program ledger: test_ledger.py COMMAND.., as `test_ledger.py ./run ledger`. Status 1: some verdict is
not what is asked.

- recordings/broken/*.txt: damaged recordings, each with the reply and the part at which the damage must be found, and
  what must be named, worked out by hand. The words of a part are those of the table in docs/OPERATING.md, which must
  have each of these recordings in the row of its part.
- recordings/vectors/*.txt: every recording must be kept, with its accounts, but for those with a record that is not
  exactly head plus body: a file is cut by the heads.
- a seeded stream of some thousand exchanges by the model must be kept, with its accounts; cut short, it must miss a
  reply, or end within one.
- a file that is missing and one that is a directory must be named on standard error.
The status must be 0 where it is kept, 1 where it is broken, and 2 where an error was written.
The accounts are counted here anew from the replies. A damaged recording is a line `broken at reply N (part P)`, with
the bytes of a reply that is not whole in front of the part and what is named behind it, and lines `> RECORD` and
`< REPLY`.
"""
import errno
import os
import pathlib
import random
import re
import subprocess
import sys
import tempfile

sys.path.insert(0, str(pathlib.Path(__file__).resolve().parents[2] / "tools"))
from lib import model, records, recordings, script

SEED = 20261115
EXCHANGES = 5000
OPERATING = recordings.ROOT / "docs" / "OPERATING.md"


class Broken:
    """Where and how a recording is broken, how many bytes there are of a reply that is not whole, and what is named."""

    def __init__(self, place, part, rest=None, named=""):
        self.place, self.part, self.rest, self.named = place, part, rest, named

    def text(self, words):
        """What is to be said, with these words for each part."""
        said = words[self.part]
        if self.rest is not None:
            said = f"the replies end within it, after {counted(self.rest, 'byte')}"
        return f"broken at reply {self.place}: {said} (part {self.part}){self.named}\n"


def rows():
    """Of each part in the table of docs/OPERATING.md: its words, and the damaged recordings of its row."""
    found = {}
    for line in OPERATING.read_text().splitlines():
        cells = [cell.strip() for cell in line.strip("|").split("|")]
        if len(cells) >= 4 and cells[0].isdecimal():
            found[int(cells[0])] = cells[1].strip("`"), re.findall(r"`([a-z-]+)`", cells[-1])
    return found


def damaged(path):
    """What is to be said of a damaged recording, its records and its replies."""
    form = r"^broken at reply (\d+)(?: after (\d+) bytes?)? \(part (\d+)\)(: .+)?$"
    found = re.search(form, path.read_text(), re.M)
    asked = Broken(int(found[1]), int(found[3]), found[2] and int(found[2]), found[4] or "")
    [(_, said, answered)] = recordings.halves(path)
    return asked, said, answered


def counted(number, name):
    return f"{number} {name}" if number == 1 else f"{number} {name}s"


class Accounts:
    """What a kept recording comes to, counted from its records and replies."""

    def __init__(self):
        self.stored, self.current = {}, {}
        self.begun = self.handed = self.thrown = self.lists = self.refused = self.exchanges = 0

    def tail(self, reply):
        for lines in (self.stored, self.current):
            for serial in [picture[0] for picture in reply["handed"]] + reply["thrown"]:
                if serial in lines:
                    lines[serial] = (lines[serial][0], False)
            for serial in [serial for serial, line in lines.items() if line[0] in reply["released"]]:
                del lines[serial]
        self.handed += len(reply["handed"])
        self.thrown += len(reply["thrown"])

    def take(self, said, answered):
        self.exchanges += 1
        reply = records.reply_of(answered)
        if reply["kind"] == "refused":
            self.refused += 1
        elif reply["kind"] == "lists":
            self.lists += 1
        elif reply["kind"] == "begun":
            self.begun += 1
            self.tail(reply)
            self.current = {reply["serial"]: (records.record_of(said)["surface"], bool(reply["flags"] & 2))}
        elif reply["kind"] == "done":
            if reply["of"] not in ("end", "abandon"):
                self.stored, self.current = self.stored | self.current, {}
            self.tail(reply)

    def text(self):
        waiting = sum(1 for _, waits in self.stored.values() if waits)
        held = len(self.stored) + len(self.current)
        return (f"kept: {counted(self.begun, 'picture')} begun, {self.handed} handed out, {self.thrown} thrown away, "
                f"{len(self.current)} current, {waiting} waiting, "
                f"{counted(held, 'surface')} held, {counted(self.lists, 'list')} checked, "
                f"{counted(self.refused, 'refusal')}, {counted(self.exchanges, 'exchange')}\n")


def kept(pairs, rest):
    """What is to be said of these, and of so many bytes of a last record that is not whole."""
    accounts = Accounts()
    for said, answered in pairs:
        accounts.take(said, answered)
    text = f"the records end with {counted(rest, 'byte')} of a record that is not whole\n" if rest else ""
    return accounts.text() + text


# ---- a stream

def deltas(rng, step):
    found, at = [], 0
    for _ in range(rng.randrange(4)):
        at += step * rng.randrange(1, 4)
        found.append(f"{at}:{rng.randrange(2)}")
    return ",".join(found)


def a_record(rng):
    kinds = ["begin", "lists", "finish", "drain", "discard", "end", "abandon", "configure", "noise"]
    kind = rng.choices(kinds, [30, 30, 28, 2, 1, 2, 2, 1, 2])[0]
    if kind == "noise":
        body = rng.randbytes(rng.randrange(20))
        return len(body).to_bytes(2, "little") + rng.randrange(12).to_bytes(2, "little") + body
    text = kind
    if kind == "configure":
        text = f"configure k=4 capacity={rng.randrange(3, 18)} buffering={rng.randrange(2, 5)}"
        text += f" reorder={rng.randrange(2)} latency={rng.randrange(3)}"
    elif kind == "begin":
        nal = rng.choices([0, 1, 8, 16, 19, 21], [20, 60, 5, 3, 3, 6])[0]
        sets = "" if nal in (16, 19) else f" lsb={rng.randrange(16)}" + "".join(
            f" {name}={entries}" for name, entries in (("neg", deltas(rng, -1)), ("pos", deltas(rng, 1))) if entries)
        text = f"begin nal={nal} output={int(rng.random() < 0.9)} noprior={int(rng.random() < 0.2)}"
        text += f" surface={rng.randrange(20)}{sets}"
    elif kind == "lists":
        both = f"lists P a0={rng.randrange(1, 5)}", f"lists B own a0={rng.randrange(1, 5)} a1={rng.randrange(1, 5)}"
        text = rng.choice(["lists I", *both])
    return records.record_bytes(records.record_of_text(text))


def stream():
    rng, session = random.Random(SEED), model.Session()
    said = [records.record_bytes(records.record_of_text("configure k=4 capacity=6 buffering=4 reorder=1 latency=0"))]
    said += [a_record(rng) for _ in range(EXCHANGES - 1)]
    return [(record, session.step(record)[1]) for record in said]


# ---- the program

class Ledger:
    def __init__(self, command, folder):
        path = pathlib.Path(command[0])
        self.command = [str(path.resolve()) if path.exists() else command[0], *command[1:]]
        self.folder, self.runs, self.bad = pathlib.Path(folder), 0, 0

    def ran(self, *files):
        """Standard output, standard error and status of a run on two files."""
        done = subprocess.run([*self.command, *files], cwd=self.folder, capture_output=True, text=True, check=False)
        return done.stdout, done.stderr, done.returncode

    def expect(self, name, found, asked):
        self.runs += 1
        if found != asked:
            self.bad += 1
            print(f"{name}: {found!r}, and {asked!r} is asked")

    def expect_text(self, name, text, said, answered):
        (self.folder / "records").write_bytes(said)
        (self.folder / "replies").write_bytes(answered)
        self.expect(name, self.ran("records", "replies"), (text, "", 0 if text.startswith("kept") else 1))

    def expect_kept(self, name, pairs, more=b""):
        said, answered = b"".join(said for said, _ in pairs) + more, b"".join(answered for _, answered in pairs)
        self.expect_text(name, kept(pairs, len(more)), said, answered)

    def expect_unread(self):
        """The file that can't be opened or read is named, whichever of the two it is."""
        (self.folder / "records").write_bytes(b"")
        (self.folder / "folder").mkdir()
        for wrong, why in (("missing", os.strerror(errno.ENOENT)), ("folder", os.strerror(errno.EISDIR))):
            for files in ((wrong, "records"), ("records", wrong)):
                self.expect(f"the files {files}", self.ran(*files), ("", f"ledger: {wrong}: {why}\n", 2))


def main():
    if len(sys.argv) < 2:
        print(__doc__, file=sys.stderr)
        return 2
    with tempfile.TemporaryDirectory() as folder:
        ledger, table = Ledger(sys.argv[1:], folder), rows()
        words, shown = {part: row[0] for part, row in table.items()}, {part: [] for part in table}
        for path in sorted(recordings.BROKEN.glob("*.txt")):
            asked, said, answered = damaged(path)
            shown[asked.part].append(path.stem)
            ledger.expect_text(path.stem, asked.text(words), said, answered)
        ledger.expect("recordings in docs/OPERATING.md", {part: row[1] for part, row in table.items()}, shown)
        for recording in recordings.read(recordings.VECTORS):
            if recordings.in_stream(recording):
                ledger.expect_kept(recording.name, list(zip(recording.said, recording.answered)))
        pairs = stream()
        said, answered = b"".join(x for x, _ in pairs), b"".join(x for _, x in pairs)
        ledger.expect_kept("stream", pairs)
        ledger.expect_kept("stream with an incomplete last record", pairs, b"\x05\x00\x04\x00\x01")
        ledger.expect_kept("an incomplete record alone", [], b"\x05")
        last, most = len(pairs[-1][1]), Broken(EXCHANGES, 1, len(pairs[-1][1]) - 1)
        ledger.expect_text("stream without its last reply", Broken(EXCHANGES, 17).text(words), said, answered[:-last])
        ledger.expect_text("stream without its last byte", most.text(words), said, answered[:-1])
        ledger.expect_text("a byte of a first reply", Broken(1, 1, 1).text(words), said, answered[:1])
        twice = Broken(2, 2).text(words)
        ledger.expect_text("stream with its first reply twice", twice, said, pairs[0][1] + answered)
        ledger.expect_kept("nothing", [])
        ledger.expect_unread()
    print(f"{ledger.runs} verdicts, {ledger.bad} wrong")
    return 1 if ledger.bad or ledger.runs < 100 else 0


if __name__ == "__main__":
    script.helps(__doc__)
    sys.exit(main())
