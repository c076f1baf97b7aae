#!/usr/bin/env python3
"""Compares a program that writes replies as text with a speller of its own.

    test_show.py COMMAND..      as in: test_show.py ./run show

COMMAND gets replies on standard input and must write a line for each. The replies are those of
recordings/vectors/*.txt, random ones of every kind with counts from 0 to 255, damaged ones and random bytes, the same
each time. The expected line is the number, then the text of tools/lib/records.py, then a refusal's word. At the end it
is tried that a line comes before the next reply is sent, that a closed output ends the run, and that an input or output
that fails, is closed or would block is named on standard error (failing.py). Then `COMMAND --records FILE`: each line
under its record, for every example and for all vectors, with records or replies left over, and with a file that can't
be read.
Status 1 at the first difference, which is printed.
"""
import pathlib
import random
import struct
import subprocess
import sys
import tempfile

sys.path.insert(0, str(pathlib.Path(__file__).resolve().parents[2] / "tools"))
import failing
from lib import recordings, records, script


# ---- what is expected

def spelled(piece):
    if not records.is_whole(piece):
        return f"damaged: {len(piece)} bytes at the end are no whole reply"
    reply = records.reply_of(piece)
    if reply is None:
        return f"damaged reply of {len(piece)} bytes, kind {struct.unpack_from('<H', piece, 2)[0]}"
    text = records.reply_text(reply)
    if reply["kind"] != "refused":
        return text
    return f"{text} {records.REFUSALS.get(reply['number'], 'unknown')}"


def expected(data):
    return "".join(f"{place} {spelled(piece)}\n" for place, piece in enumerate(records.cut(data), 1)).encode()


# ---- streams of replies

def some_count(chance):
    return chance.choice([0, 0, 0, 1, 1, 2, 3, 16, chance.randrange(256), 255])


def some_word(chance):
    edges = [0, 1, 9, 10, 99, 100, 2147483647, 2147483648, 4294967294, 4294967295]
    return chance.choice([*edges, chance.randrange(1 << 32)])


def some_tail(chance):
    shown = [(some_word(chance), some_word(chance), some_word(chance) - (1 << 31)) for _ in range(some_count(chance))]
    return {"handed": shown, "thrown": some_words(chance), "released": some_words(chance)}


def some_words(chance):
    return [some_word(chance) for _ in range(some_count(chance))]


def some_reply(chance):
    """A well-formed reply of any kind."""
    kind = chance.choice(["refused", "done", "begun", "lists"])
    if kind == "refused":
        of, number = chance.choice(records.KINDS + ["?"]), chance.choice([*range(1, 20), 65535])
        return records.reply_bytes({"kind": kind, "of": of, "number": number})
    if kind == "done":
        of = chance.choice([name for name in records.KINDS if name not in ("begin", "lists")])
        return records.reply_bytes({"kind": kind, "of": of} | some_tail(chance))
    if kind == "lists":
        return records.reply_bytes({"kind": kind, "l0": some_words(chance), "l1": some_words(chance)})
    poc, flags = some_word(chance) - (1 << 31), chance.choice([*range(16), 16, 255])
    begun = {"kind": kind, "poc": poc, "flags": flags, "serial": some_word(chance)}
    return records.reply_bytes(begun | {key: some_words(chance) for key in records.SETS} | some_tail(chance))


def longest_reply():
    """The reply that has the longest line."""
    most, low = [4294967294] * 255, -2147483648
    begun = {"kind": "begun", "poc": low, "flags": 15, "serial": 4294967295} | {key: most for key in records.SETS}
    handed = [(4294967295, 4294967295, low)] * 255
    return records.reply_bytes(begun | {"handed": handed, "thrown": most, "released": most})


def damaged(chance, reply):
    """A reply with a byte changed, a byte too few or too many, or another kind or length in its head."""
    way = chance.randrange(5)
    if way == 0:
        at = chance.randrange(len(reply))
        return reply[:at] + bytes([chance.randrange(256)]) + reply[at + 1:]
    if way == 1:
        return struct.pack("<H", len(reply) - 5) + reply[2:-1]
    if way == 2:
        return struct.pack("<H", len(reply) - 3) + reply[2:] + b"\0"
    if way == 3:
        return reply[:2] + struct.pack("<H", chance.choice([0, 1, 256, 265, 511, 512, 777, 65535])) + reply[4:]
    body = chance.randbytes(chance.choice([0, 1, 2, 3, 5, 20, 300, 65535]))
    return struct.pack("<HH", len(body), chance.choice([257, 258, 259, 261, 264, 511, 700])) + body


def streams():
    chance = random.Random(20)
    told = [reply for recording in recordings.read(recordings.VECTORS) for reply in recording.answered]
    yield b"".join(told)
    yield b""
    yield longest_reply() * 40
    for size in range(24):
        yield b"".join(told)[:size]
    for _ in range(12):
        yield b"".join(some_reply(chance) for _ in range(300))
    for _ in range(24):
        yield b"".join(chance.choice([some_reply, lambda c: damaged(c, some_reply(c))])(chance) for _ in range(60))
    for _ in range(12):
        yield b"".join(some_reply(chance) for _ in range(20))[:-chance.randrange(1, 40)]
    for _ in range(12):
        yield chance.randbytes(chance.choice([1, 3, 4, 5, 100, 5000, 200000]))
    yield b"".join(some_reply(chance) for _ in range(4000))


# ---- runs

def first_difference(data, found):
    for place, (want, got) in enumerate(zip(expected(data).split(b"\n"), found.split(b"\n")), 1):
        if want != got:
            return f"line {place}\nexpected {want.decode()}\nfound    {got.decode(errors='replace')}"
    return f"{len(found)} bytes, expected {len(expected(data))}"


def compare(command):
    count = 0
    for place, data in enumerate(streams(), 1):
        found = subprocess.run(command, input=data, stdout=subprocess.PIPE, check=False).stdout
        if found != expected(data):
            print(f"stream {place}, {len(data)} bytes: {first_difference(data, found)}")
            return 1
        count += found.count(b"\n")
    print(f"{place} streams, {count} lines, all as expected")
    return 0


def at_once(command):
    """Each line comes before the next reply is sent."""
    chance = random.Random(21)
    sent = [some_reply(chance) for _ in range(20)]
    with subprocess.Popen(command, stdin=subprocess.PIPE, stdout=subprocess.PIPE, bufsize=0) as run:
        lines = run.stdout
        for place, reply in enumerate(sent, 1):
            run.stdin.write(reply)
            want, found = f"{place} {spelled(reply)}\n".encode(), b""
            while len(found) < len(want) and (more := lines.read(len(want) - len(found))):
                found += more
            if found != want:
                print(f"reply {place}, sent alone: found {found!r}")
                run.kill()
                return 1
        run.stdin.close()
    print("each line came before the next reply was sent")
    return 0


def stops(command):
    """A closed output ends the run, though the input goes on."""
    reply = records.reply_bytes({"kind": "refused", "of": "begin", "number": 7})
    with subprocess.Popen(command, stdin=subprocess.PIPE, stdout=subprocess.PIPE, bufsize=0) as run:
        run.stdout.close()
        try:
            for _ in range(200):
                run.stdin.write(reply * 10000)
        except BrokenPipeError:
            print("a closed output ends the run")
            return 0
        run.kill()
    print("the output is closed, and the run goes on reading")
    return 1


def names_it(command):
    """What can't be read or written is named on standard error, also where only the last line is written."""
    for data in (longest_reply(), b"\0"):
        for line in failing.differences(command, "show", data):
            print(line)
            return 1
    print(f"{len(failing.WAYS)} ways to fail, each with its message")
    return 0


# ---- each reply under its record

def together(said, answered):
    """What is expected of a list of records and a list of replies."""
    lines = []
    for place in range(max(len(said), len(answered))):
        record = "(no record)"
        if place < len(said):
            record = recordings.Words.said_text(said[place])
            if not records.is_whole(said[place]):
                record = f"({len(said[place])} bytes that are no whole record)"
        number, reply = (place + 1, spelled(answered[place])) if place < len(answered) else ("-", "(no reply)")
        lines.append(f"{number} {record}\n  {reply}\n")
    return "".join(lines).encode()


def pairings():
    """Records and replies that belong together, and some of which one or the other is left over."""
    for recording in recordings.read(recordings.EXAMPLES):
        yield recording.said, recording.answered
    vectors = [recording for recording in recordings.read(recordings.VECTORS) if recordings.in_stream(recording)]
    yield [x for recording in vectors for x in recording.said], [x for recording in vectors for x in recording.answered]
    yield recording.said, recording.answered[:-1]
    yield recording.said[:-1], recording.answered
    yield [*recording.said, b"\x06\0\x01"], recording.answered
    yield [*recording.said, b"\x06\0\x01\0\x04"], recording.answered
    yield [], []


def beside(command):
    count = 0
    with tempfile.TemporaryDirectory() as folder:
        path = pathlib.Path(folder) / "records"
        for said, answered in pairings():
            path.write_bytes(b"".join(said))
            done = subprocess.run([*command, "--records", str(path)], input=b"".join(answered), capture_output=True,
                                  timeout=300, check=False)
            if (done.returncode, done.stdout, done.stderr) != (0, together(said, answered), b""):
                print(f"--records, {count}: status {done.returncode}, {done.stdout!r:.300}, {done.stderr!r:.300}")
                return 1
            count += 1
        for bad, why in ((folder, "Is a directory"), (f"{folder}/none", "No such file or directory")):
            done = subprocess.run([*command, "--records", bad], input=b"", capture_output=True, timeout=300,
                                  check=False)
            if (done.returncode, done.stderr) != (2, f"show: {bad}: {why}\n".encode()):
                print(f"--records {bad}: status {done.returncode}, {done.stderr!r:.300}")
                return 1
    print(f"{count} recordings with each reply under its record")
    return 0


def main(command):
    if not command:
        print(__doc__, file=sys.stderr)
        return 2
    return compare(command) or at_once(command) or stops(command) or names_it(command) or beside(command)


if __name__ == "__main__":
    script.helps(__doc__)
    sys.exit(main(sys.argv[1:]))
