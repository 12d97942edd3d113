"""Algorithms, keys, signatures and MACs for cose-verify, cose-key and cose-make, by python3-cryptography."""

import base64
import hashlib
import hmac
import json
import os
import re
from dataclasses import dataclass, replace
from functools import partial

from cryptography.exceptions import InvalidSignature, UnsupportedAlgorithm
from cryptography.hazmat.primitives import hashes, serialization
from cryptography.hazmat.primitives.asymmetric import ec, ed448, ed25519, padding, rsa, utils

from cose_cbor import ARRAY, Reader, Refused, decode, encode, show, utf8
from cose_tool import read, why


# Algorithms

@dataclass(frozen=True)
class Algorithm:
    """An algorithm of COSE: the kind of its keys (kty of a JWK) and their curves, its hash, and the length of a MAC."""
    name: str
    number: int
    kind: str
    curves: tuple = ()
    hash: object = None
    length: int = 0

    @property
    def is_mac(self):
        return self.kind == "oct"


ALGORITHMS = [
    Algorithm("ES256", -7, "EC", ("P-256",), hashes.SHA256()),
    Algorithm("ES384", -35, "EC", ("P-384",), hashes.SHA384()),
    Algorithm("ES512", -36, "EC", ("P-521",), hashes.SHA512()),
    Algorithm("ES256K", -47, "EC", ("secp256k1",), hashes.SHA256()),
    Algorithm("ESP256", -9, "EC", ("P-256",), hashes.SHA256()),
    Algorithm("ESP384", -51, "EC", ("P-384",), hashes.SHA384()),
    Algorithm("ESP512", -52, "EC", ("P-521",), hashes.SHA512()),
    Algorithm("EdDSA", -8, "OKP", ("Ed25519", "Ed448")),
    Algorithm("Ed25519", -19, "OKP", ("Ed25519",)),
    Algorithm("Ed448", -53, "OKP", ("Ed448",)),
    Algorithm("PS256", -37, "RSA", (), hashes.SHA256()),
    Algorithm("PS384", -38, "RSA", (), hashes.SHA384()),
    Algorithm("PS512", -39, "RSA", (), hashes.SHA512()),
    Algorithm("RS256", -257, "RSA", (), hashes.SHA256()),
    Algorithm("RS384", -258, "RSA", (), hashes.SHA384()),
    Algorithm("RS512", -259, "RSA", (), hashes.SHA512()),
    Algorithm("HS256/64", 4, "oct", (), hashes.SHA256(), 8),
    Algorithm("HS256", 5, "oct", (), hashes.SHA256(), 32),
    Algorithm("HS384", 6, "oct", (), hashes.SHA384(), 48),
    Algorithm("HS512", 7, "oct", (), hashes.SHA512(), 64),
]
BY_NUMBER = {algorithm.number: algorithm for algorithm in ALGORITHMS}


def algorithm_named(name):
    """The algorithm of this name or number."""
    for algorithm in ALGORITHMS:
        if name in (algorithm.name, str(algorithm.number)):
            return algorithm
    raise Refused(f"{show(name)}: not one of {' '.join(algorithm.name for algorithm in ALGORITHMS)}")


def name_of(number):
    return BY_NUMBER[number].name if number in BY_NUMBER else f"the algorithm {show(number)}"


# Keys

SIGN, VERIFY, MAC, MAC_VERIFY = 1, 2, 9, 10     # key operations (RFC 9052, section 7.1)
OPERATIONS = (SIGN, VERIFY, MAC, MAC_VERIFY)
JWK_OPERATIONS = {"sign": (SIGN, MAC), "verify": (VERIFY, MAC_VERIFY)}
RSA_BITS = 2048

EC_CURVES = {"P-256": ec.SECP256R1(), "P-384": ec.SECP384R1(), "P-521": ec.SECP521R1(), "secp256k1": ec.SECP256K1()}
OKP_CURVES = {"Ed25519": (ed25519.Ed25519PublicKey, ed25519.Ed25519PrivateKey), "Ed448": (ed448.Ed448PublicKey, ed448.Ed448PrivateKey)}

# Of a COSE_Key: the kty and crv by the names of a JWK, and the labels of its parts, which are all byte strings here.
KIND_NUMBERS = {"OKP": 1, "EC": 2, "RSA": 3, "oct": 4}
CURVE_NUMBERS = {"P-256": 1, "P-384": 2, "P-521": 3, "X25519": 4, "X448": 5, "Ed25519": 6, "Ed448": 7, "secp256k1": 8, "brainpoolP256r1": 256,
                 "brainpoolP320r1": 257, "brainpoolP384r1": 258, "brainpoolP512r1": 259}
PUBLIC_PARTS = {"OKP": {"x": -2}, "EC": {"x": -2, "y": -3}, "RSA": {"n": -1, "e": -2}, "oct": {}}
SECRET_PARTS = {"OKP": {"d": -4}, "EC": {"d": -4}, "RSA": {"d": -3, "p": -4, "q": -5, "dp": -6, "dq": -7, "qi": -8}, "oct": {"k": -1}}


@dataclass(repr=False)      # so that no message of Python's shows a secret
class Key:
    kind: str               # EC, OKP, RSA or oct
    curve: str = ""
    public: object = None
    private: object = None
    secret: bytes = None
    kid: bytes = None
    alg: object = None      # the number of the algorithm that it is limited to
    operations: set = None  # those that it is limited to
    any_kid: bool = False   # whether it is for messages of every key id
    source: str = ""        # the name of its file

    def why_not_for(self, algorithm, operation=None):
        """Why this key isn't for that algorithm and operation; empty if it is."""
        if self.kind != algorithm.kind or algorithm.curves and self.curve not in algorithm.curves:
            wanted = f"{algorithm.name} takes {algorithm.kind} {' or '.join(algorithm.curves)}".rstrip()
            return f"it is {self.kind} {self.curve}".rstrip() + f", and {wanted}"
        if self.alg is not None and self.alg != algorithm.number:
            return f"it is for {name_of(self.alg)} alone"
        if operation and self.operations is not None and operation not in self.operations:
            return "its operations don't have this one"
        if self.kind == "RSA" and self.public.key_size < RSA_BITS:
            return f"it has {self.public.key_size} bits, and RFC 8230 wants {RSA_BITS}"
        if operation == MAC_VERIFY and algorithm.length == 8 and self.alg is None:
            return "tags of 64 bits are taken only under a key that names HMAC 256/64 as its algorithm"
        return ""

    def drop_private(self):
        """Leaves the public half. If the whole was to sign alone, that is to verify."""
        if self.private:
            self.private = None
            self.operations = self.operations and {VERIFY}


def show_kid(kid):
    """A key id in hex, and as text if it is some; it may be a sender's, so nothing else of it is shown."""
    if not kid:
        return "no key id" if kid is None else "an empty key id"
    is_text = len(kid) <= 32 and all(0x21 <= byte < 0x7F for byte in kid)
    return kid[:32].hex() + (".." if len(kid) > 32 else "") + (f' ("{kid.decode()}")' if is_text else "")


def kid_of(text):
    """The key id that an argument says: a text, or hex:01ff."""
    return bytes_of_hex(text[4:], text) if text.startswith("hex:") else os.fsencode(text)


def words_of(keys):
    """The key ids of these keys, each as an argument says it."""
    ids = sorted({key.kid for key in keys if key.kid is not None})
    said = [kid.decode() if kid and all(0x21 <= byte < 0x7F for byte in kid) and kid[:4] != b"hex:" else "hex:" + kid.hex() for kid in ids]
    return ", ".join(said[:20] + (["and more"] if len(said) > 20 else [])) or "none has a key id"


def thumbprint(key):
    """SHA-256 over the key's public part alone (RFC 9679, section 3)."""
    if key.kind == "oct":
        raise Refused(f"{key.source or 'the key'}: no thumbprint of a secret, which it would help to guess")
    return hashlib.sha256(encode(to_cose(Key(key.kind, key.curve, key.public)))).digest()


def kid_of_name(name):
    """The key id that a file's name says, as an argument does. A name that could be hex or text is refused."""
    if re.fullmatch("([0-9a-fA-F]{2})+", name):
        raise Refused(f"{name}.pem may be for the key id {name.lower()} in hex or for the text {name}: "
                      f"name it hex:{name.lower()}.pem or hex:{name.encode().hex()}.pem, or use a key set (cose-key --kid)")
    return kid_of(name)


def bytes_of_hex(text, whose):
    try:
        return bytes.fromhex(text)
    except ValueError:
        raise Refused(f"{whose}: not hex") from None


def secret_of(path, is_hex):
    """The symmetric key that a file has in hex or as it is; of - standard input."""
    secret = read(path)
    if is_hex:
        secret = bytes_of_hex(secret.decode("ascii", "replace"), path)
    if not secret:
        raise Refused(f"{path}: it is empty")
    return Key("oct", secret=secret, source=path)


# Keys and their parts

def key_of_object(key):
    """A key of python3-cryptography, private or public."""
    private = key if hasattr(key, "private_bytes") else None
    public = key.public_key() if private else key
    if isinstance(public, rsa.RSAPublicKey):
        return Key("RSA", "", public, private)
    for name, curve in EC_CURVES.items():
        if isinstance(public, ec.EllipticCurvePublicKey) and public.curve.name == curve.name:
            return Key("EC", name, public, private)
    for name, (of_public, _) in OKP_CURVES.items():
        if isinstance(public, of_public):
            return Key("OKP", name, public, private)
    name = getattr(getattr(public, "curve", public), "name", type(public).__name__.strip("_").removesuffix("PublicKey"))
    raise Refused(f"{name}: not for signatures here; these take {', '.join([*EC_CURVES, *OKP_CURVES])} and RSA")


def key_of_parts(kind, curve, parts):
    """A key of the parts of a JWK, each in bytes."""
    for name in PUBLIC_PARTS[kind] if kind != "oct" else "k":
        if parts.get(name) in (None, b""):
            raise Refused(f"no {name}")
    if kind == "oct":
        return Key("oct", secret=parts["k"])
    if curve not in {"EC": EC_CURVES, "OKP": OKP_CURVES, "RSA": [None]}[kind]:
        raise Refused(f"the curve {show(curve)}, which isn't for signatures here")
    public, private = {"EC": ec_halves, "OKP": okp_halves, "RSA": rsa_halves}[kind](curve, parts)
    if private and pem_of(private.public_key()) != pem_of(public):
        raise Refused("a private half that isn't that of the public one")
    return key_of_object(private or public)


def ec_halves(curve, parts):
    """Both halves, the second None if it isn't there. A y may be its sign alone (RFC 9053, section 7.1.1)."""
    curve, x, y = EC_CURVES[curve], parts["x"], parts["y"]
    size = (curve.key_size + 7) // 8
    if len(x) > size or y not in (False, True) and len(y) > size:
        raise Refused(f"a coordinate of more than {size} bytes")
    x = x.rjust(size, b"\0")
    point = bytes([2 + y]) + x if y in (False, True) else b"\x04" + x + y.rjust(size, b"\0")
    return ec.EllipticCurvePublicKey.from_encoded_point(curve, point), parts.get("d") and ec.derive_private_key(number(parts["d"]), curve)


def okp_halves(curve, parts):
    of_public, of_private = OKP_CURVES[curve]
    return of_public.from_public_bytes(parts["x"]), parts.get("d") and of_private.from_private_bytes(parts["d"])


def rsa_halves(_, parts):
    public = rsa.RSAPublicNumbers(number(parts["e"]), number(parts["n"]))
    if not parts.get("d"):
        return public.public_key(), None
    d, p, q, dp, dq, qi = (number(parts.get(name) or b"") for name in SECRET_PARTS["RSA"])
    return public.public_key(), rsa.RSAPrivateNumbers(p, q, d, dp, dq, qi, public).private_key()


def parts_of(key):
    """The parts of a key, as key_of_parts takes them; the private ones if it has a private half."""
    raw, plain = serialization.Encoding.Raw, serialization.NoEncryption()
    if key.kind == "oct":
        return {"k": key.secret}
    if key.kind == "OKP":
        parts = {"x": key.public.public_bytes(raw, serialization.PublicFormat.Raw)}
        return {**parts, "d": key.private.private_bytes(raw, serialization.PrivateFormat.Raw, plain)} if key.private else parts
    public, private = key.public.public_numbers(), key.private and key.private.private_numbers()
    if key.kind == "EC":
        size = (key.public.key_size + 7) // 8
        parts = {"x": public.x, "y": public.y, **({"d": private.private_value} if private else {})}
        return {name: part.to_bytes(size, "big") for name, part in parts.items()}
    parts = {"n": public.n, "e": public.e}
    if private:
        parts.update(d=private.d, p=private.p, q=private.q, dp=private.dmp1, dq=private.dmq1, qi=private.iqmp)
    return {name: part.to_bytes((part.bit_length() + 7) // 8, "big") for name, part in parts.items()}


def number(data):
    return int.from_bytes(data, "big")


def pem_of(key):
    """The PEM of a key of python3-cryptography, private or public."""
    if hasattr(key, "private_bytes"):
        return key.private_bytes(serialization.Encoding.PEM, serialization.PrivateFormat.PKCS8, serialization.NoEncryption())
    return key.public_bytes(serialization.Encoding.PEM, serialization.PublicFormat.SubjectPublicKeyInfo)


# Files of keys

LOADERS = [serialization.load_pem_public_key, serialization.load_ssh_public_key, serialization.load_der_public_key] + [
    partial(load, password=None)
    for load in (serialization.load_pem_private_key, serialization.load_ssh_private_key, serialization.load_der_private_key)]


def from_plain(data):
    """A key in PEM or DER, or as OpenSSH writes it."""
    if len(re.findall(b"-----BEGIN [A-Z ]*KEY-----|^(?:ssh|ecdsa|sk)-", data, re.M)) > 1:
        raise Refused("several keys in one file")
    for load in LOADERS:
        try:
            return key_of_object(load(data))
        except (TypeError, ValueError, UnsupportedAlgorithm) as error:
            if re.search("is encrypted|password-protected", str(error)):
                raise Refused("an encrypted private key") from None
    raise Refused("a certificate: openssl x509 -pubkey -noout takes its public key" if b"CERTIFICATE" in data else NOT_GOOD)


def from_jwk(jwk):
    """A key of RFC 7517."""
    kind = jwk.get("kty") if isinstance(jwk, dict) else None
    if kind not in KIND_NUMBERS:
        raise Refused(f"the kty {show(kind)}")
    parts = {name: unb64(name, jwk[name]) for name in (*PUBLIC_PARTS[kind], *SECRET_PARTS[kind]) if name in jwk}
    key = key_of_parts(kind, jwk.get("crv") if kind in ("EC", "OKP") else None, parts)
    if not isinstance(jwk.get("kid", ""), str):
        raise Refused("a kid that isn't a text")
    if jwk.get("use", "sig") != "sig":
        raise Refused(f"its use is {show(jwk['use'])}, not 'sig'")
    key.kid = utf8(jwk["kid"]) if "kid" in jwk else None
    key.alg = algorithm_named(jwk["alg"]).number if "alg" in jwk else None
    if "key_ops" in jwk:
        key.operations = operations_of([number for name in jwk["key_ops"] for number in JWK_OPERATIONS.get(name, ())])
    return key


def json_of(text):
    """A JSON value, in which no object has a name twice."""
    def made(entries):
        value = dict(entries)
        if len(value) < len(entries):
            names = [name for name, _ in entries]
            raise Refused(f"{next(show(name) for name in names if names.count(name) > 1)} is there twice")
        return value
    try:
        return json.loads(text, object_pairs_hook=made)
    except json.JSONDecodeError as error:
        raise Refused(f"not JSON at character {error.pos + 1}") from None
    except RecursionError:
        raise Refused("JSON of too many levels") from None
    except ValueError:
        raise Refused("JSON that isn't UTF-8, or has a number of thousands of digits") from None


def unb64(name, text):
    if not isinstance(text, str) or not re.fullmatch("[A-Za-z0-9_-]*", text):
        raise Refused(f"{name} isn't base64url without padding")
    return base64.urlsafe_b64decode(text + "=" * (-len(text) % 4))


def operations_of(listed):
    """Those of a key's operations that are looked at here."""
    found = {each for each in listed if type(each) is int and each in OPERATIONS}
    if not found:
        raise Refused("its operations are neither to sign nor to verify")
    return found


def from_cose(entries):
    """A COSE_Key (RFC 9052, section 7)."""
    kind = name_in(KIND_NUMBERS, entries.get(1)) if isinstance(entries, dict) else None
    if kind is None:
        raise Refused(f"the kty {show(entries.get(1))}" if isinstance(entries, dict) else "not a map")
    curve = (name_in(CURVE_NUMBERS, entries.get(-1)) or entries.get(-1)) if kind in ("EC", "OKP") else None
    labels = {**PUBLIC_PARTS[kind], **SECRET_PARTS[kind]}
    parts = {name: entries[label] for name, label in labels.items() if label in entries}
    for name, part in parts.items():
        if not isinstance(part, bytes) and not (name == "y" and isinstance(part, bool)):
            raise Refused(f"its {name} isn't bytes")
    key = key_of_parts(kind, curve, parts)
    key.kid, key.alg = entries.get(2), entries.get(3)
    if not isinstance(key.kid, (bytes, type(None))):
        raise Refused("a kid that isn't bytes")
    if 3 in entries and type(key.alg) not in (int, str):
        raise Refused("an alg that is neither a number nor a text")
    if 4 in entries:
        key.operations = operations_of(entries[4])
    return key


def name_in(numbers, number):
    return next((name for name, each in numbers.items() if type(number) is int and number == each), None)


def to_cose(key):
    """The entries of a COSE_Key: with the private half if the key has one; a symmetric key is its secret."""
    entries = {1: KIND_NUMBERS[key.kind], 2: key.kid, 3: key.alg, 4: key.operations and sorted(key.operations)}
    if key.curve:
        entries[-1] = CURVE_NUMBERS[key.curve]
    labels = {**PUBLIC_PARTS[key.kind], **SECRET_PARTS[key.kind]}
    entries.update((labels[name], part) for name, part in parts_of(key).items())
    return {label: entry for label, entry in entries.items() if entry is not None}


LOAD_ERRORS = (Refused, ValueError, TypeError, UnsupportedAlgorithm, OverflowError)
NOT_GOOD = "not a good key, or of a kind that isn't taken"


def load_keys(path, note):
    """The keys of a file: one in PEM, DER or of OpenSSH, a JWK or a set of them, a COSE_Key or a set of them; or of the files KID.pem of a
    folder. Of each key that can't be used `note` says so. It is refused if there is none."""
    is_folder, keys, faults = os.path.isdir(path), [], []
    try:
        files = [os.path.join(path, name) for name in sorted(os.listdir(path)) if name.endswith(".pem")] if is_folder else [path]
    except OSError as error:
        raise Refused(f"{path}: {why(error)}") from None
    for file in files:
        keys += keys_in(file, read(file), faults)
    *others, last = faults or [f"{path}: no key in it" + ", which a folder has in files KID.pem" * is_folder]
    for fault in faults if keys else others:
        note(fault)
    if not keys:
        raise Refused(last)
    for key in keys:
        if is_folder and key.any_kid:
            key.kid, key.any_kid = kid_of_name(key.source.removesuffix(".pem")), False
    return keys


def keys_in(file, data, faults):
    """The keys of a file's bytes; to `faults` goes why others can't be used."""
    keys = []
    try:
        for place, (make, source) in enumerate(makers_of(data), 1):
            try:
                keys.append(make(source))
                keys[-1].source, keys[-1].any_kid = os.path.basename(file), make is from_plain
            except LOAD_ERRORS as error:
                faults.append(f"{file}: " + f"key {place}: " * (make is not from_plain) + in_words(error))
    except LOAD_ERRORS as error:
        faults.append(f"{file}: {in_words(error)}")
    return keys


def in_words(error):
    return str(error) if isinstance(error, Refused) else NOT_GOOD


def makers_of(data):
    """How to make each key of a file, and of what."""
    text = data.lstrip()
    if not text:
        raise Refused("it is empty")
    if text.startswith((b"-----BEGIN", b"ssh-", b"ecdsa-", b"sk-")) or data[:1] == b"\x30":     # of DER, and never of a COSE_Key
        return [(from_plain, data)]
    if text[:1] in (b"{", b"["):
        parsed = json_of(data)
        return [(from_jwk, jwk) for jwk in (parsed.get("keys", [parsed]) if isinstance(parsed, dict) else parsed)]
    try:
        parsed = decode(data)
        fault = "it is no key or set of keys"
    except Refused as refused:
        parsed, fault = None, refused
    if not isinstance(parsed, (list, dict)):
        raise Refused(f"no PEM, DER, ssh or JWK, and as a COSE_Key: {fault}; of a secret cose-key raw:FILE makes one, or hex:FILE if it is in hex")
    return [(from_cose, entries) for entries in (parsed if isinstance(parsed, list) else [parsed])]


# Keys for cose-ask

ALG, KID = 1, 4     # in a header (RFC 9052, section 3.1)
MANY = 256          # key ids under which a set has one PEM


class KeySet:
    """Keys as cose-ask gets them: `encoded` is a COSE_KeySet, and `places` has each key at its place in that, with its key id."""

    def __init__(self, keys):
        # No message that can be read has an empty key id, nor has a COSE_KeySet.
        self.keys = [(key, public_entries(key)) for key in keys if key.kid != b""]
        self.has_any, self.ids = any(key.any_kid for key in keys), set()
        self.name(set())

    def name(self, ids):
        """Puts a key for messages of every key id under these ids too."""
        self.ids = ids if len(self.ids | ids) > MANY else self.ids | ids
        self.places, self.by_id, entries = [], {}, []
        for key, each in self.keys:
            for kid in [None, *self.ids] if key.any_kid else [key.kid]:
                self.places.append((kid, key))
                self.by_id.setdefault(kid, []).append(key)
                entries.append(each if kid is None else {**each, 2: kid})
        self.encoded = encode(entries)

    def in_words(self, algorithm, kid):
        """An algorithm and a key id that a message names, and the first keys of that id."""
        algorithm = "no algorithm" if algorithm is None else name_of(algorithm)
        keys = [f"{key.kind} {key.curve}".rstrip() + ("" if key.alg is None else f" for {name_of(key.alg)}") + f" in {key.source}"
                for key in self.by_id.get(kid, [])[:3]]
        return f"{algorithm}, {show_kid(kid)}" + (": " if keys else "") + ", ".join(keys)


def public_entries(key):
    """The entries of a COSE_Key without key id and private half, and with zeros for a secret, of which the rules ask that it is there. An
    algorithm that isn't known here is a text, which no rule takes."""
    entries = to_cose(replace(key, kid=None, private=None, secret=key.secret and bytes(len(key.secret))))
    return entries if key.alg is None or key.alg in BY_NUMBER else {**entries, 3: show(key.alg)}


def names_in(message):
    """The algorithm and the key id that each signature or MAC of a message names: hints for reasons, and for what cose-ask gets."""
    reader = Reader(message)
    reader.head()
    reader.head()
    names = names_at(reader)
    reader.skip()
    major, count, _ = reader.head()
    if major != ARRAY:
        yield names
        return
    while count != 0 and message[reader.at] != 0xFF:
        is_open = reader.head()[1] is None
        yield names_at(reader)
        reader.skip()
        reader.at += is_open
        count = count and count - 1


def names_at(reader):
    """Those in the two headers there."""
    protected, unprotected = reader.item(0), reader.item(0)
    protected = decode(protected) if protected else {}
    return protected.get(ALG), protected.get(KID) or unprotected.get(KID)


# Signatures and MACs

def verify(algorithm, key, covered, signature):
    """Returns if the signature or MAC is good under the key, which is one for the algorithm."""
    try:
        if algorithm.is_mac:
            if not hmac.compare_digest(mac(algorithm, key, covered), signature):
                raise Refused("the tag isn't good")
        elif algorithm.kind == "EC":
            key.public.verify(der_of(algorithm, key, signature), hashed(algorithm, covered), ec.ECDSA(utils.Prehashed(algorithm.hash)))
        elif algorithm.kind == "OKP":
            key.public.verify(signature, covered)
        else:
            key.public.verify(signature, hashed(algorithm, covered), padding_of(algorithm), utils.Prehashed(algorithm.hash))
    except InvalidSignature:
        raise Refused("the signature isn't good") from None


def sign(algorithm, key, covered):
    """The signature or MAC."""
    if algorithm.is_mac:
        return mac(algorithm, key, covered)
    if algorithm.kind == "EC":
        size = (key.public.key_size + 7) // 8
        halves = utils.decode_dss_signature(key.private.sign(covered, ec.ECDSA(algorithm.hash)))
        return b"".join(half.to_bytes(size, "big") for half in halves)
    if algorithm.kind == "OKP":
        return key.private.sign(covered)
    return key.private.sign(covered, padding_of(algorithm), algorithm.hash)


def hashed(algorithm, covered):
    """The hash of what is covered, which hashlib makes faster than python3-cryptography."""
    return hashlib.new(algorithm.hash.name, covered).digest()


def mac(algorithm, key, covered):
    return hmac.digest(key.secret, covered, algorithm.hash.name)[:algorithm.length]


def der_of(algorithm, key, signature):
    """A signature of r and s (RFC 9053, section 2.1), as python3-cryptography takes it."""
    size = (key.public.key_size + 7) // 8
    if len(signature) != 2 * size:
        is_der = signature[:1] == b"\x30" and signature[1:2] in (b"\x81", bytes([len(signature) - 2 & 255]))
        der = ", it looks like DER" if is_der else ""
        raise Refused(f"the signature has {len(signature)} bytes{der}; {algorithm.name} has r and s in {size} bytes each")
    return utils.encode_dss_signature(number(signature[:size]), number(signature[size:]))


def padding_of(algorithm):
    if algorithm.name.startswith("PS"):
        return padding.PSS(padding.MGF1(algorithm.hash), algorithm.hash.digest_size)
    return padding.PKCS1v15()
