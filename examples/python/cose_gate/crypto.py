"""Whether a signature or MAC is good under a key that the rules allow for its algorithm (RFC 9053, sections 2 and 3; RFC 8230; RFC 8812; RFC
9864). So the algorithm fixes type and curve of the key, but for EdDSA, which is on either of two."""

from __future__ import annotations

import hmac

from cose_gate.gate import KeyParts, Signature

ECDSA = {-7: ("SECP256R1", "SHA256"), -35: ("SECP384R1", "SHA384"), -36: ("SECP521R1", "SHA512"), -47: ("SECP256K1", "SHA256"),
         -9: ("SECP256R1", "SHA256"), -51: ("SECP384R1", "SHA384"), -52: ("SECP521R1", "SHA512")}  # fmt: skip
EDDSA = (-8, -19, -53)
ED25519 = 6
PSS = {-37: "SHA256", -38: "SHA384", -39: "SHA512"}
PKCS1 = {-257: "SHA256", -258: "SHA384", -259: "SHA512"}
HMAC = {4: ("sha256", 8), 5: ("sha256", 32), 6: ("sha384", 48), 7: ("sha512", 64)}


def is_good(one: Signature, key: KeyParts) -> bool:
    """Whether it is good under this key; if its algorithm isn't known here, it isn't."""
    if one.algorithm in HMAC:
        name, length = HMAC[one.algorithm]
        return hmac.compare_digest(hmac.digest(key.n_or_k, one.covered, name)[:length], one.signature)
    from cryptography.exceptions import InvalidSignature, UnsupportedAlgorithm

    try:
        return _verify(one, key)
    except (InvalidSignature, UnsupportedAlgorithm, ValueError):
        return False


def _number(part: bytes) -> int:
    return int.from_bytes(part, "big")


def _verify(one: Signature, key: KeyParts) -> bool:
    """Raises if the signature isn't good."""
    from cryptography.hazmat.primitives import hashes
    from cryptography.hazmat.primitives.asymmetric import ec, ed448, ed25519, padding, rsa, utils

    if one.algorithm in ECDSA:
        curve, digest = (getattr(module, name)() for module, name in zip((ec, hashes), ECDSA[one.algorithm]))
        size = (curve.key_size + 7) // 8
        if len(one.signature) != 2 * size or not key.y:  # a y that is only a sign isn't shown
            return False
        r, s = _number(one.signature[:size]), _number(one.signature[size:])
        public = ec.EllipticCurvePublicNumbers(_number(key.x_or_e), _number(key.y), curve).public_key()
        public.verify(utils.encode_dss_signature(r, s), one.covered, ec.ECDSA(digest))
        return True
    if one.algorithm in EDDSA:
        kind = ed25519.Ed25519PublicKey if key.curve == ED25519 else ed448.Ed448PublicKey
        kind.from_public_bytes(key.x_or_e).verify(one.signature, one.covered)
        return True
    name = PSS.get(one.algorithm) or PKCS1.get(one.algorithm)
    if name is None:
        return False
    digest = getattr(hashes, name)()
    how = padding.PSS(padding.MGF1(digest), digest.digest_size) if one.algorithm in PSS else padding.PKCS1v15()
    rsa.RSAPublicNumbers(_number(key.x_or_e), _number(key.n_or_k)).public_key().verify(one.signature, one.covered, how, digest)
    return True
