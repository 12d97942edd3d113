"""Signatures that the caller verifies: COSE_Sign1 with ES256 (RFC 9053, section 2.1), by `pass_signed` of cose_gate and by its steps, and of
one message by `verify`, also as a token. It makes keys and messages with Debian's python3-cbor2 and python3-cryptography, spoils some, and
prints what passes: es256.py LIBRARY. Build and run: `bash scripts/c-library.sh python`."""

import os
import sys

import cbor2
from cryptography.exceptions import InvalidSignature
from cryptography.hazmat.primitives import hashes
from cryptography.hazmat.primitives.asymmetric import ec, utils

import cose_gate
from cose_gate import Gate, LimitsError, Refused, StoppedError, Terms

ALG, CRIT, KID, ES256, SIGN1 = 1, 2, 4, -7, 18
KTY, EC2, CRV, P256, X, Y = 1, 2, -1, 1, -2, -3


def covered_by(protected, aad, payload):
    """What the signature of a COSE_Sign1 is over (RFC 9052, section 4.4)."""
    return cbor2.dumps(["Signature1", protected, aad, payload])


def sign(key, kid, aad, payload, more={}):
    """A COSE_Sign1, as the signer makes it, with more labels in its protected header."""
    protected = cbor2.dumps({ALG: ES256, **more})
    der = key.sign(covered_by(protected, aad, payload), ec.ECDSA(hashes.SHA256()))
    r, s = utils.decode_dss_signature(der)
    signature = r.to_bytes(32, "big") + s.to_bytes(32, "big")
    return cbor2.dumps(cbor2.CBORTag(SIGN1, [protected, {KID: kid}, payload, signature]))


def key_set(**keys):
    """A COSE_KeySet of these public keys, by their key ids (RFC 9052, section 7)."""
    points = {kid: key.public_numbers() for kid, key in keys.items()}
    parts = {kid: {CRV: P256, X: it.x.to_bytes(32, "big"), Y: it.y.to_bytes(32, "big")} for kid, it in points.items()}
    return cbor2.dumps([{KTY: EC2, 2: kid.encode(), **more} for kid, more in parts.items()])


def is_good(one, key):
    """Whether a signature is good under a key that fits."""
    if one.algorithm != ES256 or len(one.signature) != 64:
        return False
    assert (key.type, key.curve) == (EC2, P256)
    r, s, x, y = (int.from_bytes(part, "big") for part in (one.signature[:32], one.signature[32:], key.x_or_e, key.y))
    try:
        public = ec.EllipticCurvePublicNumbers(x, y, ec.SECP256R1()).public_key()
        public.verify(utils.encode_dss_signature(r, s), one.covered, ec.ECDSA(hashes.SHA256()))
    except (InvalidSignature, ValueError):
        return False
    return True


def main(words):
    os.environ["COSE_GATE_LIBRARY"] = words[1]
    gate = Gate()
    signer, other = ec.generate_private_key(ec.SECP256R1()), ec.generate_private_key(ec.SECP256R1())
    keys = key_set(k1=signer.public_key(), k2=other.public_key())
    aad = b"today"
    good = sign(signer, b"k1", aad, b"open the door")
    spoiled = good.replace(b"open", b"lock")
    renamed = good.replace(b"\x42k1", b"\x42k2")
    critical = sign(signer, b"k1", aad, b"open the door", {CRIT: ["room"], "room": 1})
    input = good + spoiled + renamed + critical

    items, parts = gate.ask_ruled(keys, aad, input), gate.key_parts(keys)
    asked = [one for item in items for one in item.signatures]
    accepted = [one.digest for one in asked if any(is_good(one, parts[place]) for place in one.keys)]
    checked = gate.pass_digests(accepted, aad, input)
    assert [item.number for item in items] == [1, 2, 3, 4] and len(asked) == 3 and len(accepted) == 1, (items, accepted)
    assert items[3].why == "a critical label is not understood", items[3]
    assert checked.passed == good and checked.some_refused, checked
    assert gate.pass_signed(keys, aad, input, is_good) == checked
    assert gate.pass_signed(keys, aad, input, lambda one, key: False).passed == b""
    try:
        gate.pass_signed(keys, aad, good + good[:-1], is_good)
    except StoppedError as fault:
        assert fault.passed == good, fault
    else:
        raise AssertionError("not stopped")
    # A yes to one message is none to the same bytes under another key id, which no signature covers.
    assert gate.pass_digests(accepted, aad, renamed).passed == b""
    assert gate.pass_digests([], aad, input).passed == b""
    print(checked.lines, end="")
    image = sign(signer, b"k1", aad, bytes(1 << 20))
    assert gate.verify(keys, aad, image, is_good) == bytes(1 << 20)
    for message, why in ((image[:-1] + b"\0", "Judged"), (image + b"\xff", "ExtraneousData"), (critical, items[3].why)):
        try:
            gate.verify(keys, aad, message, is_good)
        except Refused as fault:
            assert str(fault) == why, fault
        else:
            raise AssertionError("taken: " + why)

    by_package(gate, signer, keys, aad, image, spoiled)


def by_package(gate, signer, keys, aad, image, spoiled):
    """The same by the package alone, and of a token that ends at 2000."""
    for lent in (image, bytearray(image), memoryview(image)):
        assert cose_gate.verify(lent, keys, aad) == bytes(1 << 20)
    claims = cbor2.dumps({3: "door", 4: 2000})
    token = sign(signer, b"k1", aad, claims)
    assert cose_gate.verify(token, keys, aad, Terms(1999, audience="door", needed=(3, 4))) == claims
    faults = {
        "expired": (token, Terms(2000, audience="door")),
        "for a receiver, and none is named here": (token, Terms(1999)),
        "for another receiver": (token, Terms(1999, audience="gate")),
        "of another issuer": (token, Terms(1999, any_audience=True, issuer="me")),
        "a claim that is needed is not there": (token, Terms(1999, any_audience=True, needed=("scope",))),
        "the payload is not one item of CBOR": (sign(signer, b"k1", aad, b"open the door"), Terms(0)),
        "Judged": (spoiled, None),
        "Decode": (b"", None),
        "ExtraneousData": (token + token, Terms(1999, any_audience=True)),
    }
    for why, (message, terms) in faults.items():
        try:
            cose_gate.verify(message, keys, aad, terms)
        except Refused as fault:
            assert str(fault) == why, (fault, why)
        else:
            raise AssertionError("taken: " + why)

    # A token passes at its time alone, also among others. Terms that are none are no terms.
    assert gate.pass_signed(keys, aad, token + image, is_good, token=Terms(1999, audience="door")).passed == token
    assert gate.pass_signed(keys, aad, token + image, is_good, token=Terms(2000, audience="door")).passed == b""
    for terms in (Terms(1 << 63), Terms(0, needed=(1 << 64,)), Terms(0, issuer="\ud800"), Terms(0, needed=("\udcc3\udca9",))):
        try:
            gate.ask_ruled(keys, aad, token, token=terms)
        except LimitsError:
            continue
        raise AssertionError(terms)


if __name__ == "__main__":
    main(sys.argv)
