#!/usr/bin/env python3
"""The examples: recordings/examples/*.txt with their bytes, and those in docs/DIFFERENCES.md.

    examples.py            check them (status 1: something is wrong)
    examples.py --write    write NAME.records and NAME.replies from NAME.txt

Each text has one recording of its file's name (lib/recordings.py has the form); NAME.records and NAME.replies are its
bytes, and the model answers alike. In docs/DIFFERENCES.md an example is an indented block of `> RECORD` and `< REPLY`
lines; where it has no configure of its own, the one that the document names comes first, and each reply that stands
behind a record must be the model's.
"""
import re
import sys

from lib import model, recordings, records, script

DOCUMENT = recordings.ROOT / "docs" / "DIFFERENCES.md"
FIRST = "configure k=4 capacity=4 buffering=4 reorder=1 latency=0"


def said(session, text):
    return session.step(records.record_bytes(records.record_of_text(text)))[1]


def wrong(lines):
    """The replies of one example of the document that are not the model's."""
    session = model.Session()
    if not lines[0].startswith("> configure"):
        said(session, FIRST)
    reply = None
    for line in lines:
        if line.startswith(">"):
            reply = said(session, line[1:])
        elif records.reply_bytes(records.reply_of_text(line[1:])) != reply:
            yield f"{line}: the model says {records.reply_text(records.reply_of(reply))}"


def document_faults():
    found = 0
    for section in re.split(r"^### ", DOCUMENT.read_text(), flags=re.M)[1:]:
        lines = [line.strip() for line in section.splitlines() if line.startswith("    ")]
        found += bool(lines)
        for text in wrong(lines) if lines else ():
            yield f"{section.splitlines()[0]}: {text}"
    if not found:
        yield f"{DOCUMENT.name} has no example"


def files_of(recording):
    ends = (("records", recording.said), ("replies", recording.answered))
    return [(recordings.EXAMPLES / f"{recording.name}.{end}", b"".join(parts)) for end, parts in ends]


def example_faults(found):
    for recording in found:
        if recording.where.split(":")[0] != f"{recording.name}.txt":
            yield f"{recording.where}: {recording.name} is not the name of its file"
        yield from recordings.model_differences(recording)
        for path, data in files_of(recording):
            if not path.exists() or path.read_bytes() != data:
                yield f"{path.name} is not what {recording.name}.txt says (examples.py --write writes it)"
    if not found:
        yield "there are no examples"


def main(arguments):
    if arguments not in ([], ["--write"]):
        print(__doc__, file=sys.stderr)
        return 2
    try:
        found = recordings.read(recordings.EXAMPLES)
    except records.Bad as bad:
        print(f"examples.py: {bad}", file=sys.stderr)
        return 2
    if arguments == ["--write"]:
        for recording in found:
            for path, data in files_of(recording):
                path.write_bytes(data)
        return 0
    faults = list(example_faults(found)) + list(document_faults())
    print("\n".join(faults + [f"{len(found)} examples and those of {DOCUMENT.name}: {len(faults)} faults"]))
    return 1 if faults else 0


if __name__ == "__main__":
    script.helps(__doc__)
    sys.exit(main(sys.argv[1:]))
