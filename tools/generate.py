#!/usr/bin/env python3
"""A recording made by chance, from a seed.

    generate.py PROFILE SEED COUNT > RECORDS     about COUNT records of one recording (records.py unpack < RECORDS
                                                 shows them)
"""
import sys

from lib import generate, script


def main(arguments):
    numbers = all(word.isdecimal() for word in arguments[1:])
    if len(arguments) != 3 or arguments[0] not in generate.PROFILES or not numbers:
        print(f"{__doc__}\n{generate.__doc__}", file=sys.stderr)
        return 2
    for record in generate.recording(arguments[0], int(arguments[1]), int(arguments[2])):
        sys.stdout.buffer.write(record)
    return 0


if __name__ == "__main__":
    script.helps(__doc__)
    script.filters()
    sys.exit(main(sys.argv[1:]))
