#!/usr/bin/env python3
"""Writes the files in crates/example_firmware/data: a key set, a firmware image of 60,000 bytes as a COSE_Mac0 with its tag, and the same
with one other byte. It needs python3's standard library alone."""
import hashlib
import hmac
import pathlib
import sys

TOP = pathlib.Path(__file__).resolve().parent.parent
sys.path.insert(0, str(TOP / "tools"))
from cose_cbor import Tag, encode

SECRET = bytes(range(32))
# { 1 alg: 5 HMAC 256/256 }
PROTECTED = bytes.fromhex("a10105")
IMAGE = bytes((7 * at + at // 256) % 256 for at in range(60_000))

# the structure that the tag covers (RFC 9052, section 6.3)
tag = hmac.new(SECRET, encode(["MAC0", PROTECTED, b"", IMAGE]), hashlib.sha256).digest()
message = encode(Tag(17, [PROTECTED, {}, IMAGE, tag]))
changed = bytearray(message)
changed[30_000] ^= 1
# one key: 1 kty, 4 symmetric, and -1 k, the secret
keys = encode([{1: 4, -1: SECRET}])

folder = TOP / "crates/example_firmware/data"
folder.mkdir(parents=True, exist_ok=True)
(folder / "keys.cbor").write_bytes(keys)
(folder / "image.cbor").write_bytes(message)
(folder / "changed.cbor").write_bytes(changed)
