#!/usr/bin/env python3
"""Makes of a file of evidence of a replay of a log of version 1 one of the same log in version 2, in which no number is
skipped: the same entries, hashes and signature, each entry after its word, under a roster that gives the node such a log.

usage: bench/evidence/version_2.py FILE TO
"""

import os
import sys

sys.dont_write_bytecode = True
sys.path.insert(0, os.path.join(os.path.dirname(__file__), '..', '..', 'checks'))
from verifier.log import read_entry  # noqa: E402
from verifier.xdr import Reader, hyper, word  # noqa: E402

MEMBER = 44
# The node, the first number and the hash before it.
OPENING = 4 + 8 + 32


def converted(data: bytes) -> bytes:
    members = int.from_bytes(data[:4], 'big')
    at = 4 + members * MEMBER
    node = data[at:at + 4]
    each = (data[place:place + MEMBER] for place in range(4, at, MEMBER))
    roster = word(0x80000002, members) + b''.join(member + word(2 if member[:4] == node else 1) for member in each)
    # The node, the kind, and the segment.
    at += 8
    opening = data[at:at + 4] + hyper(0) + data[at + 12:at + OPENING]
    count = int.from_bytes(data[at + OPENING:at + OPENING + 4], 'big')
    reader = Reader(data)
    reader.at = at + OPENING + 4
    entries = bytearray()
    for number in range(1, count + 1):
        start = reader.at
        read_entry(reader)
        entries += hyper(number) + data[start:reader.at]
    return roster + node + word(4) + opening + word(count) + bytes(entries) + data[reader.at:]


def main() -> int:
    if len(sys.argv) != 3:
        print(__doc__, file=sys.stderr)
        return 2
    with open(sys.argv[1], 'rb') as file:
        data = file.read()
    with open(sys.argv[2], 'wb') as file:
        file.write(converted(data))
    return 0


if __name__ == '__main__':
    sys.exit(main())
