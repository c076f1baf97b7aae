#!/usr/bin/env python3
"""tests/programs/sample.py finds a reply that is not the Rust's: in the program, and in the files."""
import contextlib
import io
import pathlib
import sys
import tempfile

TESTS = pathlib.Path(__file__).resolve().parents[1]
TOOLS = TESTS.parent / "tools"
sys.path[:0] = [str(TOOLS), str(TESTS / "programs")]
import sample
from lib import script

# answers as the model does, with one thing wrong in every recording that is long enough
PROGRAM = """
import sys
sys.path.insert(0, {tools!r})
from lib import model, records
replies = list(records.cut(model.run(sys.stdin.buffer.read())))
{damage}
sys.stdout.buffer.write(b"".join(replies))
"""
DAMAGES = {
    "": 0,
    "replies[40] = replies[40][:-1] + bytes([replies[40][-1] ^ 1])": 1,
    "replies[0], replies[1] = replies[1], replies[0]": 1,
    "replies.pop()": 1,
    "replies.append(replies[-1])": 1,
    "replies[7] = replies[7][:5]": 1,
}


def status(command):
    out = io.StringIO()
    with contextlib.redirect_stdout(out):
        return sample.main(command), out.getvalue()


def command(damage):
    return [sys.executable, "-c", PROGRAM.format(tools=str(TOOLS), damage=damage)]


def test_programs():
    for damage, wanted in DAMAGES.items():
        got, text = status(command(damage))
        assert got == wanted, f"{damage}: {text}"
        assert wanted == 0 or "expected" in text or "too many" in text, text


def test_files():
    """One digit of one reply turned in a copy of the files."""
    text = (sample.FOLDER / "small.txt").read_text()
    place = text.rindex("handed=") + len("handed=")
    damaged = text[:place] + ("1" if text[place] != "1" else "2") + text[place + 1:]
    with tempfile.TemporaryDirectory() as folder:
        sample.FOLDER = pathlib.Path(folder)
        (sample.FOLDER / "small.txt").write_text(damaged)
        assert status(command(""))[0] == 1
        (sample.FOLDER / "small.txt").write_text(text)
        assert status(command(""))[0] == 0


if __name__ == "__main__":
    script.helps(__doc__)
    test_programs()
    test_files()
    print(f"{len(DAMAGES)} programs and a damaged file judged")
