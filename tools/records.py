#!/usr/bin/env python3
"""Records and replies as text, one line each, and as bytes; the calls of a pool and their answers too.

    records.py pack < TEXT > BYTES             records.py unpack < BYTES > TEXT
    records.py pack-replies < TEXT > BYTES     records.py unpack-replies < BYTES > TEXT
    records.py pack-calls < TEXT > BYTES       records.py unpack-calls < BYTES > TEXT
    records.py pack-answers < TEXT > BYTES     records.py unpack-answers < BYTES > TEXT
    records.py split FILE.txt [FOLDER]         writes NAME.records and NAME.replies into FOLDER (the one you are in), of
                                               each recording of a text of recordings/: examples, broken, vectors

Bad text ends the run with status 2 and says the line. lib/records.py has the form of a line, lib/calls.py that of calls
and answers.
"""
import pathlib
import sys

from lib import calls, recordings, records, script

COMMANDS = {
    "pack": lambda data: records.pack(data, records.record_of_text, records.record_bytes),
    "unpack": lambda data: records.unpack(data, records.record_of, records.record_text),
    "pack-replies": lambda data: records.pack(data, records.reply_of_text, records.reply_bytes),
    "unpack-replies": lambda data: records.unpack(data, records.reply_of, records.reply_text),
    "pack-calls": lambda data: records.pack(data, calls.call_of_text, calls.to_bytes),
    "unpack-calls": lambda data: records.unpack(data, calls.some, calls.call_text),
    "pack-answers": lambda data: records.pack(data, calls.answer_of_text, calls.to_bytes),
    "unpack-answers": lambda data: records.unpack(data, calls.some, calls.answer_text),
}


def split(text, folder="."):
    """Writes the records and the replies of each recording of a text, and says the files."""
    for name, said, answered in recordings.halves(pathlib.Path(text)):
        for end, data in (("records", said), ("replies", answered)):
            path = pathlib.Path(folder) / f"{name}.{end}"
            path.write_bytes(data)
            print(path)


def done(arguments):
    """Whether the words are a command, which is then carried out."""
    if len(arguments) == 1 and arguments[0] in COMMANDS:
        sys.stdout.buffer.write(COMMANDS[arguments[0]](sys.stdin.buffer.read()))
    elif len(arguments) in (2, 3) and arguments[0] == "split":
        split(*arguments[1:])
    else:
        return False
    return True


def main(arguments):
    if arguments == ["--help"]:
        print(__doc__ + records.__doc__ + calls.__doc__)
        return 0
    try:
        if done(arguments):
            return 0
        print(__doc__, file=sys.stderr)
    except records.Bad as bad:
        print(f"records.py: {bad}", file=sys.stderr)
    except OSError as bad:
        print(f"records.py: {bad.filename}: {bad.strerror}", file=sys.stderr)
    return 2


if __name__ == "__main__":
    script.helps(__doc__)
    script.filters()
    sys.exit(main(sys.argv[1:]))
