"""Makes two keys and a sequence of signed messages in a folder, with python3-cryptography: make.py FOLDER writes signed.cbor, and the public
keys as keys/KID.pem, with the key id in hex as KID. The items: 1 good with ES256, 2 good with EdDSA (Ed25519), 3 spoilt, 4 with an unknown
key id, 5 unsigned, 6 with a critical label, 7 with the algorithm in its unprotected header."""

import os
import sys

from cryptography.hazmat.primitives import hashes, serialization
from cryptography.hazmat.primitives.asymmetric import ec, ed25519, utils

ALG, CRIT, KID, ES256, EDDSA, SIGN1 = 1, 2, 4, -7, -8, 18


def head(major, value):
    """The head of an item in canonical encoding (RFC 8949, section 4.2.1)."""
    if value < 24:
        return bytes([major << 5 | value])
    size = 1 if value < 2**8 else 2
    return bytes([major << 5 | 23 + size]) + value.to_bytes(size, "big")


def encode(value):
    """The canonical encoding of what the messages here have."""
    match value:
        case int():
            return head(0, value) if value >= 0 else head(1, -1 - value)
        case bytes():
            return head(2, len(value)) + value
        case str():
            return head(3, len(value)) + value.encode()
        case list():
            return head(4, len(value)) + b"".join(map(encode, value))
        case dict():
            return head(5, len(value)) + b"".join(encode(k) + encode(v) for k, v in value.items())
    raise TypeError(value)


def sign1(protected, unprotected, payload, sign):
    """A COSE_Sign1. The signature covers an array (RFC 9052, section 4.4), here with empty external data."""
    protected = encode(protected) if protected else b""
    covered = encode(["Signature1", protected, b"", payload])
    return head(6, SIGN1) + encode([protected, unprotected, payload, sign(covered)])


def main(folder):
    p256, ed = ec.generate_private_key(ec.SECP256R1()), ed25519.Ed25519PrivateKey.generate()

    def es256(covered):
        r, s = utils.decode_dss_signature(p256.sign(covered, ec.ECDSA(hashes.SHA256())))
        return r.to_bytes(32, "big") + s.to_bytes(32, "big")

    good = sign1({ALG: ES256}, {KID: b"11"}, b"open the door", es256)
    items = [
        good,
        sign1({ALG: EDDSA}, {KID: b"22"}, b"open the gate", ed.sign),
        good.replace(b"open", b"lock"),
        sign1({ALG: ES256}, {KID: b"33"}, b"open the safe", es256),
        encode(b"open the window"),
        sign1({ALG: ES256, CRIT: ["room"], "room": 7}, {KID: b"11"}, b"open the door", es256),
        sign1({}, {ALG: ES256, KID: b"11"}, b"open the door", es256),
    ]
    os.makedirs(os.path.join(folder, "keys"), exist_ok=True)
    for key_id, key in ((b"11", p256), (b"22", ed)):
        with open(os.path.join(folder, "keys", key_id.hex() + ".pem"), "wb") as file:
            file.write(key.public_key().public_bytes(
                serialization.Encoding.PEM, serialization.PublicFormat.SubjectPublicKeyInfo))
    with open(os.path.join(folder, "signed.cbor"), "wb") as file:
        file.write(b"".join(items))


if __name__ == "__main__":
    if len(sys.argv) != 2:
        sys.exit("usage: make.py FOLDER")
    main(sys.argv[1])
