#!/usr/bin/env python3
"""The Rust's own answers (recordings/from-rust/*.txt, see its README.md) against a program.

    sample.py COMMAND...     runs COMMAND (./run replay) on the records of each recording and compares its replies byte
                             for byte

Status 1 at the first difference. tools/lib/recordings.py has the form of the files.
"""
import pathlib
import subprocess
import sys

sys.path.insert(0, str(pathlib.Path(__file__).resolve().parents[2] / "tools"))
from lib import recordings, records, script

FOLDER = recordings.FROM_RUST


def main(command):
    if not command:
        print(__doc__, file=sys.stderr)
        return 2
    found = recordings.read(FOLDER)
    for recording in found:
        done = subprocess.run(command, input=b"".join(recording.said), stdout=subprocess.PIPE, check=True)
        lines = list(recordings.differences(recording, list(records.cut(done.stdout))))
        if lines:
            print("\n".join(lines))
            return 1
    count = sum(len(recording.said) for recording in found)
    print(f"{len(found)} recordings, {count} records: the replies are the Rust's own")
    return 0 if found else 1


if __name__ == "__main__":
    script.helps(__doc__)
    sys.exit(main(sys.argv[1:]))
