#!/usr/bin/env python3
"""Tests of the program compare: test_compare.py [--nights] COMMAND.., as `test_compare.py ./run compare`. Status 1:
some run wrote something else than what is asked, or ended with another status.

What is asked is a second version here, written from the text of document 02's Item 5 alone, and the status that
`./run compare --help` names. Compared are
- the replies of recordings/examples, every ordered pair of files; of every fourth recording of recordings/vectors and
  each of recordings/from-rust, against the next; and in one run every ordered pair of the different replies of examples
  and vectors;
- damaged ones: bits flipped, lengths changed in heads, bytes left out and put in, the same each time;
- a recording cut at every byte, as the first file and as the second; empty files; replies of 65,539 bytes;
- files that are pipes, written in small pieces.
Then what can't be read or written: a missing file, a directory, a file without permission, the wrong number of files, a
full output, one that is closed and one whose reader has gone. With --nights also two files of 1,000,000 replies that
differ in one bit.
"""
import itertools
import os
import pathlib
import random
import subprocess
import sys
import tempfile
import threading
from concurrent.futures import ThreadPoolExecutor

sys.path.insert(0, str(pathlib.Path(__file__).resolve().parents[2] / "tools"))
from lib import recordings, script

SEED = 20265
SECONDS = 300
LONGEST = 65535


# ---- Item 5, a second time

def replies(data):
    """A file cut by its heads; "an incomplete last reply counts as a reply of the bytes it has"."""
    found, at = [], 0
    while at < len(data):
        size = 4 + data[at] + 256 * data[at + 1] if at + 4 <= len(data) else len(data) - at
        found.append(data[at:at + size])
        at += size
    return found


def place(a, b):
    """"P the first byte place inside the reply that differs, or the shorter length"."""
    return next((at for at, (x, y) in enumerate(zip(a, b)) if x != y), min(len(a), len(b)))


def lines(first, second):
    """"`N differ P` .., `N only first` or `N only second`, one line each, in order; nothing for equal replies"."""
    for number, (a, b) in enumerate(itertools.zip_longest(replies(first), replies(second))):
        if b is None:
            yield f"{number} only first\n"
        elif a is None:
            yield f"{number} only second\n"
        elif a != b:
            yield f"{number} differ {place(a, b)}\n"


# ---- pairs of files, each with a name

def reply(length, fill=0, kind=257):
    return length.to_bytes(2, "little") + kind.to_bytes(2, "little") + bytes([fill]) * length


def stored_pairs():
    examples = [(path.stem, path.read_bytes()) for path in sorted(recordings.EXAMPLES.glob("*.replies"))]
    for (name, first), (other, second) in itertools.product(examples, repeat=2):
        yield f"{name} and {other}", first, second
    vectors, rust = recordings.read(recordings.VECTORS), recordings.read(recordings.FROM_RUST)
    for group in (vectors[::4], rust):
        for one, other in zip(group, group[1:] + group[:1]):
            yield f"{one.name} and {other.name}", b"".join(one.answered), b"".join(other.answered)
    told = [reply for _, data in examples for reply in replies(data)]
    told = sorted(set(told + [reply for recording in vectors for reply in recording.answered]))
    pairs = list(itertools.product(told, repeat=2))
    yield f"{len(pairs)} pairs of replies", b"".join(a for a, _ in pairs), b"".join(b for _, b in pairs)


def damaged(chance, data, turn):
    """Some bits flipped; or lengths in heads changed; or bytes left out and put in."""
    found = bytearray(data)
    for _ in range(1 + turn):
        at = chance.randrange(len(found))
        if turn % 3 == 0:
            found[at] ^= 1 << chance.randrange(8)
        elif turn % 3 == 1:
            pieces = replies(bytes(found))
            at = len(b"".join(pieces[:chance.randrange(len(pieces))]))
            found[at:at + 1] = bytes([chance.choice([0, 1, 4, 20, 255, chance.randrange(256)])])
        else:
            found[at:at + chance.randrange(3)] = chance.randbytes(chance.randrange(3))
    return bytes(found)


def damaged_pairs():
    chance = random.Random(SEED)
    data = b"".join(reply for recording in recordings.read(recordings.VECTORS) for reply in recording.answered)
    for turn in range(18):
        spoilt = damaged(chance, data, turn)
        yield f"damaged {turn}", *((data, spoilt) if turn % 2 else (spoilt, data))
    yield "noise", chance.randbytes(5000), chance.randbytes(3000)


def cut_pairs():
    """A short recording with replies of several lengths, cut at every byte."""
    data = (recordings.EXAMPLES / "first.replies").read_bytes()
    data = b"".join(replies(data)[:4])
    for size in range(len(data) + 1):
        yield f"whole, and its first {size} bytes", data, data[:size]
        yield f"its first {size} bytes, and whole", data[:size], data


def edge_pairs():
    yield "two empty files", b"", b""
    for rest in (b"\x05", b"\x05\x00", b"\x05\x00\x01", b"\x05\x00\x01\x01"):
        yield f"a rest of {len(rest)}, and nothing", rest, b""
        yield f"a whole reply, and a rest of {len(rest)} behind it", reply(5), reply(5) + rest
    yield "a whole reply, and one cut short that differs before", reply(5), reply(5, 1)[:-2]
    long = [reply(LONGEST, fill) for fill in range(3)]
    all_of_them = b"".join(long)
    last = bytearray(all_of_them)
    last[2 * len(long[0]) - 1] ^= 128
    yield "long replies", all_of_them, all_of_them
    yield "long replies, one byte", all_of_them, bytes(last)
    yield "long replies, the last cut", all_of_them, all_of_them[:-1]
    yield "long replies, the last missing", b"".join(long[:2]), all_of_them
    yield "long replies in another order", all_of_them, b"".join(long[::-1])
    yield "long replies and short ones", all_of_them, reply(0) * 40000
    yield "short replies and long ones", reply(3, 7) * 30000 + long[0], reply(3, 7) * 29999 + long[1] * 2


# ---- runs

class Compare:
    def __init__(self, command, folder):
        path = pathlib.Path(command[0])
        self.command = [str(path.resolve()) if path.exists() else command[0], *command[1:]]
        self.folder, self.runs, self.lines, self.bad = pathlib.Path(folder), 0, 0, 0
        self.lock = threading.Lock()

    def ended(self, names, **ends):
        """Standard output, standard error and status of a run on these files."""
        ends = {"stdout": subprocess.PIPE} | ends
        done = subprocess.run([*self.command, *names], cwd=self.folder, stdin=subprocess.DEVNULL,
                              stderr=subprocess.PIPE, timeout=SECONDS, check=False, **ends)
        return done.stdout or b"", done.stderr.decode(errors="replace"), done.returncode

    def judge(self, name, found, asked):
        with self.lock:
            self.runs += 1
            if found != asked:
                self.bad += 1
                print(f"{name}: {found!r:.400}, and {asked!r:.400} is asked")

    def expect(self, name, first, second, found):
        text = "".join(lines(first, second)).encode()
        if found[0] != text and found[1:] == ("", 1):
            number, (line, want) = next(x for x in enumerate(itertools.zip_longest(
                found[0].split(b"\n"), text.split(b"\n"))) if x[1][0] != x[1][1])
            name, found, text = f"{name}, line {number}", (line, *found[1:]), want
        with self.lock:
            self.lines += text.count(b"\n")
        self.judge(name, found, (text, "", 1 if text else 0))

    def pair(self, number, name, first, second):
        paths = [self.folder / f"{number}.{which}" for which in ("first", "second")]
        for path, data in zip(paths, (first, second)):
            path.write_bytes(data)
        self.expect(name, first, second, self.ended([path.name for path in paths]))
        for path in paths:
            path.unlink()

    def pairs(self, pairs):
        with ThreadPoolExecutor(2) as pool:
            list(pool.map(lambda pair: self.pair(pair[0], *pair[1]), enumerate(pairs)))

    def piped(self):
        """Both files are pipes, written in pieces of any size."""
        chance = random.Random(SEED)
        pair = [reply(n % 50, 1) for n in range(400)]
        pair = [b"".join(pair), b"".join(pair[:300]) + b"\x07"]
        names = ["pipe.first", "pipe.second"]

        def write(path, data, sizes):
            with open(path, "wb", buffering=0) as into:
                for size in sizes:
                    into.write(data[:size])
                    data = data[size:]
                into.write(data)

        for name, data in zip(names, pair):
            os.mkfifo(self.folder / name)
            sizes = [chance.randrange(1, 300) for _ in range(40)]
            threading.Thread(target=write, args=(self.folder / name, data, sizes), daemon=True).start()
        self.expect("pipes", *pair, self.ended(names))

    def failing(self, name, found, words):
        """Nothing was written, and the message has these words."""
        said, message, status = found
        self.judge(name, (said, words in message and words or message, status), (b"", words, 2))

    def failures(self):
        (self.folder / "some").write_bytes(reply(5))
        (self.folder / "other").write_bytes(reply(6) + reply(0) * 50000)
        (self.folder / "a-folder").mkdir()
        unreadable = self.folder / "unreadable"
        unreadable.write_bytes(reply(5))
        unreadable.chmod(0)
        for wrong in ("missing", "a-folder", "unreadable"):
            if wrong == "unreadable" and os.access(unreadable, os.R_OK):
                print("a file without permission: not tried, since this user may read any file")
                continue
            self.failing(f"{wrong} first", self.ended([wrong, "some"]), wrong)
            self.failing(f"{wrong} second", self.ended(["some", wrong]), wrong)
        for names in ([], ["some"], ["some", "some", "some"]):
            self.failing(f"{len(names)} files", self.ended(names), "usage")
        with open("/dev/full", "wb") as full:
            self.failing("full output", self.ended(["some", "other"], stdout=full), "standard output")
        closed = Compare(["sh", "-c", 'exec "$@" >&-', "sh", *self.command], self.folder)
        self.failing("closed output", closed.ended(["some", "other"]), "standard output")
        self.judge("closed output, equal files", closed.ended(["some", "some"]), (b"", "", 0))
        out, into = os.pipe()
        os.close(out)
        try:
            self.failing("output with no reader", self.ended(["some", "other"], stdout=into), "standard output")
        finally:
            os.close(into)

    def helps(self):
        said, message, status = self.ended(["--help"])
        self.judge("--help", (b"N only second" in said, message, status), (True, "", 0))


def nights(compare):
    """Two nights of 1,000,000 replies that differ in one bit."""
    chance = random.Random(SEED)
    told = [reply for recording in recordings.read(recordings.FROM_RUST) for reply in recording.answered]
    first = b"".join(chance.choices(told, k=1000000))
    second = bytearray(first)
    second[-5] ^= 1
    compare.pair("night", "two nights, one bit", first, bytes(second))
    compare.pair("night", "a night twice", first, first)


def main(arguments):
    long = arguments[:1] == ["--nights"]
    command = arguments[1:] if long else arguments
    if not command:
        print(__doc__, file=sys.stderr)
        return 2
    with tempfile.TemporaryDirectory() as folder:
        compare = Compare(command, folder)
        compare.pairs([*stored_pairs(), *damaged_pairs(), *cut_pairs(), *edge_pairs()])
        compare.piped()
        compare.failures()
        compare.helps()
        if long:
            nights(compare)
    print(f"{compare.runs} runs, {compare.lines} lines, {compare.bad} runs wrong")
    return 1 if compare.bad or compare.runs < 200 else 0


if __name__ == "__main__":
    script.helps(__doc__)
    sys.exit(main(sys.argv[1:]))
