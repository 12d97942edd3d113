#!/usr/bin/env python3
"""worst-messages.py FOLDER [NESTING LAYERS]: writes messages in which as much lies inside one another as these limits let through (256 levels
and 16 protected headers, if none are given), one to a file NAME, and beside it NAME.row: a row of conformance_cose that reads it, copies it,
compares both and writes the copy. On standard output there is a line for each: NAME, and what the program `cose-gate` says of it under
examples/keys.cbor without external data (`passed`, `Judged` or `Shape`).

A counter signature in an unprotected header costs two levels of CBOR and no protected header; one in a protected header begins again with
all levels. So 16 protected headers of 127 counter signatures each, and 126 in the unprotected header of the message around them, are 2,031
signatures inside one another in 10 KB."""
import hashlib
import hmac
import os
import sys

sys.path.insert(0, os.path.join(os.path.dirname(os.path.abspath(__file__)), "../tools"))
from cose_cbor import encode as string, head

SECRET = bytes(range(32))  # of the key "01" in examples/keys.cbor


def nested(count, protected, begin=b""):
    """The map of a header with so many counter signatures inside one another, each in the unprotected header of the one around it. The
    innermost has these bytes as its protected header. `begin` are further entries of the outermost."""
    entries = 1 + (1 if begin else 0)
    opened = b"\x07\x83\x40" + b"\xa1\x07\x83\x40" * (count - 1)
    opened = opened[:-1] + protected  # the last of them has a protected header of its own
    return bytes([0xA0 + entries]) + begin + opened + b"\xa0\x40" + b"\x40" * (count - 1)


def chain(count, layers, innermost=b"\x40"):
    """A protected header of so many layers, each with counter signatures inside one another."""
    for _ in range(layers):
        innermost = string(nested(count, innermost))
    return innermost


def in_layers(layers, value):
    """A protected header of so many layers, each with one counter signature and this value at label 99."""
    protected = b"\x40"
    for _ in range(layers):
        protected = string(b"\xa2\x07\x83" + protected + b"\xa0\x40\x18\x63" + value)
    return protected


def message(tag, protected, unprotected, rest):
    return head(6, tag) + head(4, 2 + len(rest)) + protected + unprotected + b"".join(rest)


def main(folder, nesting=256, layers=16):
    os.makedirs(folder, exist_ok=True)

    def write(name, content, said):
        with open(os.path.join(folder, name), "wb") as it:
            it.write(content)
        kind = "mac0" if name.startswith("pass-") else name.split("-")[0]
        row = f"{kind}-tagged {content.hex()}" if (nesting, layers) == (256, 16) else f"within {nesting} {layers} {kind} {content[1:].hex()}"
        with open(os.path.join(folder, f"{name}.row"), "w") as it:
            print(row, file=it)
        print(name, said)

    whole = (nesting - 1) // 2  # counter signatures of a header that is the whole item
    inside = (nesting - 3) // 2  # of a header inside a message
    signed = (nesting - 5) // 2  # of a header of a signer or recipient inside a message
    protected = chain(whole, layers - 1)  # inside a protected header there is one layer less
    payload, tag = string(b"hi"), string(b"\x00" * 32)
    kinds = {"sign1": (18, [payload, string(b"")]), "mac0": (17, [payload, tag])}
    for name, (number, rest) in kinds.items():
        write(f"{name}-protected", message(number, protected, b"\xa0", rest), "Judged")
        write(f"{name}-signatures", message(number, b"\x40", nested(inside, protected), rest), "Judged")
        # read to its end, and then refused: all of it is dropped
        write(f"{name}-fault", message(number, b"\x41\xf6", nested(inside, protected), rest), "Shape")
        # one layer more
        write(f"{name}-too-deep", message(number, b"\x40", nested(inside, string(nested(whole, protected))), rest), "Shape")
    signer = head(4, 3) + b"\x40" + nested(signed, protected) + b"\x40"
    write("sign-signatures", message(98, b"\x40", nested(inside, protected), [payload, b"\x82" + signer + signer]), "Judged")
    write("sign-fault", message(98, b"\x40", b"\xa0", [payload, b"\x82" + signer + b"\x80"]), "Shape")
    count = (nesting - 5) // 2
    recipient = b"\x83" + protected + b"\xa0\x40"
    for _ in range(count - 1):
        recipient = b"\x84\x40\xa0\x40\x81" + recipient
    write("mac-recipients", message(97, b"\x40", b"\xa0", [payload, tag, b"\x81" + recipient]), "Judged")
    recipient = b"\x83\x40" + nested((nesting - 5 - count) // 2, protected) + b"\x40"
    for _ in range(count // 2 - 1):
        recipient = b"\x84\x40\xa0\x40\x81" + recipient
    write("mac-both", message(97, b"\x40", nested(inside, protected), [payload, tag, b"\x81" + recipient]), "Judged")
    write("mac-fault", message(97, b"\x41\xf6", b"\xa0", [payload, tag, b"\x81" + recipient]), "Shape")
    values = {"maps": b"\xa1\x00", "arrays": b"\x81", "tags": b"\xd8\x63"}
    for name, opened in values.items():
        bottom = b"\x00"
        write(
            f"sign1-{name}",
            message(18, in_layers(layers - 1, opened * (nesting - 1) + bottom), b"\xa1\x18\x63" + opened * (nesting - 3) + bottom, [payload, b"\x40"]),
            "Judged",
        )
    # with a good tag: what the MAC covers has the protected bytes as they are
    for name, begin, unprotected in (("signatures", b"\x01\x05", nested(inside, protected, b"\x04\x42" + b"01")), ("protected", b"\x01\x05", b"\xa1\x04\x42" + b"01")):
        header = string(b"\xa1\x01\x05") if name == "signatures" else string(nested(whole, chain(whole, layers - 2), begin))
        covered = b"\x84" + head(3, 4) + b"MAC0" + header + b"\x40" + payload
        good = hmac.new(SECRET, covered, hashlib.sha256).digest()
        write(f"pass-{name}", message(17, header, unprotected, [payload, string(good)]), "passed")


if __name__ == "__main__":
    if len(sys.argv) not in (2, 4):
        sys.exit(__doc__)
    main(sys.argv[1], *map(int, sys.argv[2:]))
