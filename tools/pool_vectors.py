#!/usr/bin/env python3
"""The recordings of a pool, recordings/pool/NAME.txt with their bytes.

    pool_vectors.py            check them (status 1: something is wrong)
    pool_vectors.py --write    write NAME.calls and NAME.answers from NAME.txt

Each answer that they ask for is laid out as an answer to its call, the files are the bytes of the text, and the pool of
lib/pool.py answers alike. lib/pool_recordings.py has the form of the text. tests/programs/test_pool.py asks the program
for the same answers.
"""
import sys

from lib import calls, pool_recordings, recordings, records, script


def layout_faults(recording):
    """Answers that are none to that kind of call, or hold no whole reply."""
    for place, (said, asked) in enumerate(zip(recording.said, recording.answered), 1):
        found = calls.answer_of(asked) if records.is_whole(said) and records.is_whole(asked) else None
        if found is None or calls.is_return(said) != calls.is_return(asked):
            yield f"{recording.name}, call {place}: no answer to that call"
        elif not calls.is_return(said) and records.reply_of(found[2]) is None:
            yield f"{recording.name}, call {place}: no whole reply"


def file_faults(recording):
    for path, data in recording.files():
        if not path.exists() or path.read_bytes() != data:
            yield f"{path.name} is not what {recording.name}.txt says (pool_vectors.py --write writes it)"


def main(arguments):
    if arguments not in ([], ["--write"]):
        print(__doc__, file=sys.stderr)
        return 2
    try:
        found = pool_recordings.read()
    except records.Bad as bad:
        print(f"pool_vectors.py: {bad}", file=sys.stderr)
        return 2
    if arguments == ["--write"]:
        for recording in found:
            for path, data in recording.files():
                path.write_bytes(data)
        return 0
    checks = (layout_faults, file_faults, pool_recordings.model_differences)
    return recordings.summary(found, checks, ("recordings of a pool", "calls"))


if __name__ == "__main__":
    script.helps(__doc__)
    sys.exit(main(sys.argv[1:]))
