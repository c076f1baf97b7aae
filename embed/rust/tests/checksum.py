#!/usr/bin/env python3
"""checksum.py DIGITS: the CRC-32 of bytes in hexadecimal, as a plain number."""
import sys
import zlib

if sys.argv[1:] == ["--help"]:
    print(__doc__)
elif len(sys.argv) == 2:
    print(zlib.crc32(bytes.fromhex(sys.argv[1])))
else:
    print(__doc__, file=sys.stderr)
    sys.exit(2)
