#!/usr/bin/env python3
"""check.py PROGRAM..: the driver PROGRAM (a command: words before the recording) answers the vectors, and recordings of
every profile of tools/lib/generate.py, byte for byte as the model (tools/lib/model.py). Ends with status 1 at the first
difference."""
import pathlib
import subprocess
import sys
import tempfile

sys.path.insert(0, str(pathlib.Path(__file__).resolve().parent.parent / "tools"))
from lib import generate, model, recordings, script

PROFILES = [
    "random-access", "low-delay", "long-term", "leading", "layers", "small", "encoders",
    "chaos", "edges", "wild", "limits",
]


def samples():
    for recording in recordings.read(recordings.VECTORS):
        if recordings.in_stream(recording):
            yield recording.name, b"".join(recording.said), b"".join(recording.answered)
    for profile in PROFILES:
        for seed in range(5):
            data = b"".join(generate.recording(profile, seed, 400))
            yield f"{profile} {seed}", data, model.run(data)


def main(command, answers=None):
    """`answers` has what is asked for in place of a session's replies."""
    compared = answered = 0
    with tempfile.TemporaryDirectory() as folder:
        said, made = pathlib.Path(folder, "said"), pathlib.Path(folder, "made")
        for name, data, asked in samples():
            asked = answers(data) if answers else asked
            said.write_bytes(data)
            subprocess.run([*command, said, "1", made], check=True)
            if made.read_bytes() != asked:
                sys.exit(f"check.py: {' '.join(command)} answers {name} otherwise than asked")
            compared, answered = compared + 1, answered + len(asked)
    print(f"{compared} recordings, {answered} bytes of replies as asked")


if __name__ == "__main__":
    script.helps(__doc__)
    main(sys.argv[1:])
