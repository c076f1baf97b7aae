"""The harness from Python: recordings in, the Rust's answers out
(against-rust/crate/src/decoder/stateless/h265/vaapi.rs has the form)."""
import struct
import subprocess

KEPT, ENDED, FAILED, PLACES, LT_FOLL, GIVEN = 600, 601, 602, 603, 604, 606
MARKS = ["unmarked", "short-term", "long-term"]


class Answer:
    """What the Rust says to one record."""

    def __init__(self, reply, failure=None):
        self.reply, self.failure = reply, failure
        self.stored, self.previous = [], None
        self.places = self.lt_foll = self.given = None

    def take(self, kind, body):
        if kind == KEPT:
            count = body[0]
            entries = struct.iter_unpack("<IBBi", body[1:1 + 10 * count])
            self.stored = [(serial, MARKS[mark], bool(waiting), latency) for serial, mark, waiting, latency in entries]
            rest = body[1 + 10 * count:]
            self.previous = struct.unpack("<ii", rest) if rest else None
        else:
            name = {PLACES: "places", LT_FOLL: "lt_foll", GIVEN: "given"}[kind]
            setattr(self, name, [value for value, in struct.iter_unpack("<I", body)])


def read(data):
    """The answers to each recording; the last may be cut off."""
    recordings, answers, at = [], [], 0
    while at + 4 <= len(data):
        length, kind = struct.unpack_from("<HH", data, at)
        piece, at = data[at:at + 4 + length], at + 4 + length
        if kind == ENDED:
            recordings.append(answers)
            answers = []
        elif kind == FAILED:
            answers.append(Answer(None, piece[4:].decode()))
        elif kind < KEPT:
            answers.append(Answer(piece))
        else:
            answers[-1].take(kind, piece[4:])
    return recordings + ([answers] if answers else [])


def run(program, recordings, show=False, scc=False, timeout=600):
    """The answers to each recording, and whether the program was stopped by the timeout."""
    data = b"".join(struct.pack("<I", len(records)) + records for records in recordings)
    command = [program] + ["--show"] * show + ["--scc"] * scc
    process = subprocess.Popen(command, stdin=subprocess.PIPE, stdout=subprocess.PIPE)
    try:
        return read(process.communicate(data, timeout=timeout)[0]), False
    except subprocess.TimeoutExpired:
        process.kill()
        return read(process.communicate()[0]), True
