#!/usr/bin/env python3
"""digests.py < RECORDS > DIGESTS: of the binary records of cose-ask, the digests that cose-pass --digests takes, 32 bytes each: SHA-256 of the
record's key in which SHA-256 of the covered bytes stands for these. The rows of after-ci.sh compare by it."""
import hashlib
import sys


def framed(piece):
    return len(piece).to_bytes(8, "little") + piece


def split(data):
    """The pieces, each after its length in eight bytes."""
    while data:
        size = 8 + int.from_bytes(data[:8], "little")
        yield data[8:size]
        data = data[size:]


for key in split(sys.stdin.buffer.read()):
    *front, covered, signature = split(key[8:])
    front = key[:8] + b"".join(map(framed, front))
    digest = hashlib.sha256(front + framed(hashlib.sha256(covered).digest()) + framed(signature)).digest()
    sys.stdout.buffer.write(digest)
