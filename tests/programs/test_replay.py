#!/usr/bin/env python3
"""Tests of the program `replay` from outside.

    test_replay.py COMMAND [ARGUMENTS]        for instance: test_replay.py ./run replay

It runs the command on the examples and the vectors of recordings/ (each from a fresh session) and compares with their
stored replies; on records cut into pieces at any byte; on damaged bytes, which the model answers too; on a pipe that
pauses after each record, where the reply must come before the next record is sent; on an output that takes no byte; and
on an input or output that fails, is closed or would block (failing.py).
Status 1 at the first difference.
"""
import pathlib
import random
import struct
import subprocess
import sys
from concurrent.futures import ThreadPoolExecutor

sys.path.insert(0, str(pathlib.Path(__file__).resolve().parents[2] / "tools"))
import failing
from lib import model, recordings, records, script, tried
from lib.tried import Failed

SEED = 20265
SECONDS = 300


def answered(command, data):
    done = subprocess.run(command, input=data, stdout=subprocess.PIPE, timeout=SECONDS, check=False)
    if done.returncode != 0:
        raise Failed(f"status {done.returncode}")
    return done.stdout


def compare(command, recording):
    replies = answered(command, b"".join(recording.said))
    for line in recordings.differences(recording, list(records.cut(replies))):
        raise Failed(line)


def streams():
    found = recordings.read(recordings.EXAMPLES) + recordings.read(recordings.VECTORS)
    return [recording for recording in found if recordings.in_stream(recording)]


def stored(command):
    found = streams()
    with ThreadPoolExecutor(2) as pool:
        list(pool.map(lambda recording: compare(command, recording), found))
    return f"{len(found)} recordings, {sum(len(r.said) for r in found)} records"


def damaged(command):
    """All recordings as one stream, with bytes changed, left out and put in: what model.py answers."""
    chance = random.Random(SEED)
    count = 0
    for turn in range(20):
        data = bytearray(b"".join(b"".join(r.said) for r in streams()))
        for _ in range(turn * 5):
            at = chance.randrange(len(data))
            data[at:at + chance.randrange(2)] = bytes(chance.randrange(256) for _ in range(chance.randrange(3)))
        replies, asked = answered(command, bytes(data)), model.run(bytes(data))
        if replies != asked:
            at = next(i for i in range(len(asked) + 1) if replies[:i + 1] != asked[:i + 1])
            raise Failed(f"damaged stream {turn}: the replies differ from model.py's at byte {at}")
        count += len(list(records.cut(asked)))
    return f"20 streams, {count} replies as model.py's"


def piecewise(command):
    """The same replies where the input comes in pieces of any size."""
    chance = random.Random(SEED)
    data = b"".join(b"".join(r.said) for r in streams())
    with subprocess.Popen(command, stdin=subprocess.PIPE, stdout=subprocess.PIPE) as program:
        at = 0
        while at < len(data):
            size = chance.randrange(1, 200)
            program.stdin.write(data[at:at + size])
            program.stdin.flush()
            at += size
        program.stdin.close()
        replies = program.stdout.read()
    if replies != model.run(data):
        raise Failed("in pieces, the replies differ")
    return f"{len(data)} bytes in pieces"


def pausing(command):
    """A reply comes before the next record is sent."""
    count = 0
    with subprocess.Popen(command, stdin=subprocess.PIPE, stdout=subprocess.PIPE, bufsize=0) as program:
        for recording in recordings.read(recordings.EXAMPLES)[:1]:
            for said, asked in zip(recording.said, recording.answered):
                program.stdin.write(said)
                reply = b""
                while len(reply) < len(asked):
                    part = program.stdout.read(len(asked) - len(reply))
                    if not part:
                        raise Failed("the output ended early")
                    reply += part
                if reply != asked:
                    raise Failed(f"{recording.name}: a reply at a pause differs")
                count += 1
        program.stdin.close()
        if program.stdout.read():
            raise Failed("more replies than records")
    return f"{count} replies, each before the next record"


def shut(command):
    """An output that takes no byte ends the run, though the input goes on."""
    with (
        open("/dev/full", "wb") as full,
        subprocess.Popen(command, stdin=subprocess.PIPE, stdout=full, stderr=subprocess.DEVNULL, bufsize=0) as program,
    ):
        try:
            for _ in range(100000):
                program.stdin.write(struct.pack("<HH", 0, 5))
            program.stdin.close()
        except BrokenPipeError:
            pass
        program.wait(SECONDS)
    return "a full output ends the run"


def names_it(command):
    """What can't be read or written is named on standard error."""
    for line in failing.differences(command, "replay", struct.pack("<HH", 0, 5) * 1000):
        raise Failed(line)
    return f"{len(failing.WAYS)} ways to fail, each with its message"


def main(command):
    if not command:
        print(__doc__, file=sys.stderr)
        return 2
    return tried.run("replay", (stored, damaged, piecewise, pausing, shut, names_it), command)


if __name__ == "__main__":
    script.helps(__doc__)
    sys.exit(main(sys.argv[1:]))
