#!/usr/bin/env python3
"""The fixed sample of the Rust's answers, recordings/from-rust/*.txt.

    write_sample.py JUDGE --write     choose recordings of generate.py that stay in the compared domain, and write what
                                      the Rust answers
    write_sample.py JUDGE --check     ask the Rust again: the replies must be those of the files (status 1: some are
                                      not)
"""
import argparse
import pathlib
import sys

sys.path.insert(0, str(pathlib.Path(__file__).resolve().parent.parent / "tools"))
import judge as judging
import rust
from lib import records, recordings

# profile, recordings, records each, what it shows
CHOSEN = [
    ("random-access", 4, 180, "hierarchical B pictures with CRA, IDR and BLA"),
    ("low-delay", 3, 180, "pictures that refer back only"),
    ("long-term", 4, 180, "long-term pictures, with and without msb, used and kept"),
    ("leading", 4, 180, "RASL and RADL pictures"),
    ("layers", 3, 180, "temporal layers, sub-layer non-reference pictures"),
    ("small", 4, 180, "k = 4, small stores"),
    ("chaos", 4, 150, "any types, sets and lists"),
]
FIRST_SEED = 1000000


def chosen(profile, count, size):
    """The first seeds whose recordings lie in the domain from end to end."""
    seed, found = FIRST_SEED, []
    while len(found) < count:
        told = judging.Told(profile, seed, size)
        if len(told.asked) == size:
            found.append((seed, told))
        seed += 1
    return found


def write(judge):
    for profile, count, size, shows in CHOSEN:
        found = chosen(profile, count, size)
        answers, _ = rust.run(judge, [told.question() for _, told in found])
        lines = ["# Answered by cros-codecs 0.0.6 itself (against-rust/write_sample.py --write); not to be edited."]
        for (seed, told), said in zip(found, answers):
            lines.append(f"\nrecording {profile}-{seed}: {shows} (generate.py {profile} {seed} {size})")
            for piece, answer in zip(told.pieces, said, strict=True):
                lines.append(f"> {records.record_text(records.record_of(piece))}")
                lines.append(f"< {records.reply_text(records.reply_of(answer.reply))}")
        (recordings.FROM_RUST / f"{profile}.txt").write_text("\n".join(lines) + "\n")


def check(judge):
    found = recordings.read(recordings.FROM_RUST)
    answers, _ = rust.run(judge, [b"".join(recording.said) for recording in found])
    for recording, said in zip(found, answers, strict=True):
        lines = list(recordings.differences(recording, [answer.reply or b"" for answer in said]))
        if lines:
            print("\n".join(lines))
            return 1
    count = sum(len(recording.said) for recording in found)
    print(f"{len(found)} recordings, {count} records of recordings/from-rust: the Rust says the same again")
    return 0 if found else 1


def main():
    parser = argparse.ArgumentParser(description=__doc__, formatter_class=argparse.RawDescriptionHelpFormatter)
    parser.add_argument("judge")
    mode = parser.add_mutually_exclusive_group(required=True)
    mode.add_argument("--write", action="store_true")
    mode.add_argument("--check", action="store_true")
    arguments = parser.parse_args()
    if arguments.write:
        recordings.FROM_RUST.mkdir(exist_ok=True)
        write(arguments.judge)
    return check(arguments.judge)


if __name__ == "__main__":
    sys.exit(main())
