#!/usr/bin/env python3
"""The picture of the documents is what tools/timeline.py draws of the replies of the program replay, byte for byte.

    test_timeline.py COMMAND..      as in: test_timeline.py ./run replay

COMMAND gets recordings/examples/rescan.records; the picture is docs/rescan.svg. Status 1: it is another.
"""
import pathlib
import subprocess
import sys
import tempfile

ROOT = pathlib.Path(__file__).resolve().parents[2]
sys.path.insert(0, str(ROOT / "tools"))
from lib import script

RECORDS = ROOT / "recordings" / "examples" / "rescan.records"
PICTURE = ROOT / "docs" / "rescan.svg"


def drawn(command):
    """What is drawn of the replies that the command gives."""
    with tempfile.NamedTemporaryFile(suffix=".replies") as replies:
        with RECORDS.open("rb") as said:
            subprocess.run(command, stdin=said, stdout=replies, check=True)
        draw = [sys.executable, str(ROOT / "tools" / "timeline.py"), str(RECORDS), replies.name]
        return subprocess.run(draw, stdout=subprocess.PIPE, check=True).stdout


def main(command):
    if not command:
        print(__doc__, file=sys.stderr)
        return 2
    try:
        found, asked = drawn(command), PICTURE.read_bytes()
    except (OSError, subprocess.CalledProcessError) as bad:
        print(f"test_timeline.py: {bad}")
        return 1
    if found != asked:
        print(f"{PICTURE.name}: its {len(asked)} bytes are not the {len(found)} that are drawn of {RECORDS.name}")
        print("  tools/timeline.py recordings/examples/rescan.records recordings/examples/rescan.replies draws it")
        return 1
    print(f"{PICTURE.name} is what is drawn of the replies to {RECORDS.name}, {len(found)} bytes")
    return 0


if __name__ == "__main__":
    script.helps(__doc__)
    sys.exit(main(sys.argv[1:]))
