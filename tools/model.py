#!/usr/bin/env python3
"""model.py < RECORDS > REPLIES: answers records as the program `replay` does, by the session of lib/model.py."""
import sys

from lib import model, script

if __name__ == "__main__":
    script.helps(__doc__)
    script.filters()
    sys.stdout.buffer.write(model.run(sys.stdin.buffer.read()))
