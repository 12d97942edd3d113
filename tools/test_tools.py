"""Tests of cose-verify, cose-key and cose-make, over the programs in PATH: `bash tools/test.sh` runs them over those that are proved.

Messages are made here by cbor2 and python3-cryptography alone, so that what the tools make and read is compared with other code."""

import hashlib
import hmac
import json
import os
import re
import shutil
import subprocess
import sys
import tempfile
import time
import unittest

import cbor2
from cryptography.hazmat.primitives import hashes, serialization
from cryptography.hazmat.primitives.asymmetric import ec, ed448, ed25519, padding, rsa, utils, x25519

HERE = os.path.dirname(os.path.abspath(__file__))
VERIFY = os.path.join(HERE, "cose-verify")
h = bytes.fromhex
NOW = 1_700_000_000


def run(tool, *arguments, data=b"", status=None):
    """The output of a tool, its lines and its status."""
    done = subprocess.run([os.path.join(HERE, tool), *arguments], input=data, capture_output=True)
    told = done.stderr.decode()
    assert status is None or done.returncode == status, (tool, arguments, done.returncode, told)
    return done.stdout, told, done.returncode


PEAK = """import atexit, re, runpy, sys
path, sys.path[0], *sys.argv = sys.argv[1:]
atexit.register(lambda: open(path, "w").write(re.search(r"VmHWM:\\s*(\\d+)", open("/proc/self/status").read())[1]))
runpy.run_path(sys.argv[0], run_name="__main__")"""


def peak_of(*arguments, data):
    """The memory that cose-verify itself takes at most, in MiB, without the programs that it runs; and what it wrote."""
    with tempfile.NamedTemporaryFile() as file:
        done = subprocess.run([sys.executable, "-c", PEAK, file.name, HERE, VERIFY, *arguments], input=data, capture_output=True)
        return int(file.read()) >> 10, done.stdout, done.stderr.decode(), done.returncode


def pem(key):
    return key.public_key().public_bytes(serialization.Encoding.PEM, serialization.PublicFormat.SubjectPublicKeyInfo)


def private_pem(key):
    return key.private_bytes(serialization.Encoding.PEM, serialization.PrivateFormat.PKCS8, serialization.NoEncryption())


def ecdsa(key, hash, high=False, der=False, other_size=None):
    size = other_size or (key.curve.key_size + 7) // 8

    def sign(covered):
        signature = key.sign(covered, ec.ECDSA(hash))
        r, s = utils.decode_dss_signature(signature)
        if high and s < N256 // 2:
            s = N256 - s
        return signature if der else r.to_bytes(size, "big") + s.to_bytes(size, "big")
    return sign


N256 = 0xFFFFFFFF00000000FFFFFFFFFFFFFFFFBCE6FAADA7179E84F3B9CAC2FC632551
P256, OTHER, P384, P521, K1 = (ec.generate_private_key(c()) for c in (ec.SECP256R1, ec.SECP256R1, ec.SECP384R1, ec.SECP521R1, ec.SECP256K1))
ED, ED448 = ed25519.Ed25519PrivateKey.generate(), ed448.Ed448PrivateKey.generate()
RSA, SHORT = rsa.generate_private_key(65537, 2048), rsa.generate_private_key(65537, 1024)
SECRET = bytes(range(32))
ES256 = ecdsa(P256, hashes.SHA256())


def pss(key, hash):
    return lambda covered: key.sign(covered, padding.PSS(padding.MGF1(hash), hash.digest_size), hash)


def pkcs(key, hash):
    return lambda covered: key.sign(covered, padding.PKCS1v15(), hash)


def tag(number, value):
    return cbor2.dumps(cbor2.CBORTag(number, value))


def sign1(protected, unprotected, payload=b"hi", sign=ES256, aad=b"", raw=None):
    raw = raw if raw is not None else cbor2.dumps(protected) if protected else b""
    return tag(18, [raw, unprotected, payload, sign(cbor2.dumps(["Signature1", raw, aad, payload]))])


def mac0(protected, unprotected, payload=b"hi", secret=SECRET, name="sha256", length=None):
    raw = cbor2.dumps(protected)
    whole = hmac.new(secret, cbor2.dumps(["MAC0", raw, b"", payload]), name).digest()
    return tag(17, [raw, unprotected, payload, whole[:length]])


def signed(signers, payload=b"hi", body=b""):
    made = []
    for protected, unprotected, sign in signers:
        raw = cbor2.dumps(protected)
        made.append([raw, unprotected, sign(cbor2.dumps(["Signature", body, raw, b"", payload]))])
    return tag(98, [body, {}, payload, made])


def claims(**more):
    return cbor2.dumps({1: "me", **{int(k[1:]): v for k, v in more.items()}})


def flipped(message):
    return message[:-1] + bytes([message[-1] ^ 1])


KID = {4: b"dev1"}
GOOD = sign1({1: -7}, KID)


class Tools(unittest.TestCase):
    @classmethod
    def setUpClass(cls):
        cls.folder = tempfile.mkdtemp()
        cls.keys = os.path.join(cls.folder, "keys")
        os.mkdir(cls.keys)
        for name, key in (("dev1", P256), ("hex:3131", OTHER), ("p384", P384), ("p521", P521), ("k1", K1), ("hex:6564", ED), ("ed448", ED448),
                          ("rsa", RSA), ("short", SHORT)):
            cls.put(os.path.join("keys", name + ".pem"), pem(key))

    @classmethod
    def tearDownClass(cls):
        shutil.rmtree(cls.folder)

    @classmethod
    def put(cls, name, data):
        path = os.path.join(cls.folder, name)
        with open(path, "wb") as file:
            file.write(data)
        return path

    def verify(self, data, *arguments, keys=None, status=None):
        return run("cose-verify", "--keys", keys or self.keys, *arguments, data=data, status=status)

    def refused(self, rows, *arguments, good=GOOD, keys=None):
        """Of rows of a name, a reason and a message, with a good one before each and at the end, only the good ones pass; the lines say why."""
        data = b"".join(good + message for _, _, message in rows) + good
        out, told, status = self.verify(data, *arguments, keys=keys)
        self.assertEqual((out, status), (good * (len(rows) + 1), 1), told)
        place = 0
        for number, (name, reason, message) in enumerate(rows):
            with self.subTest(reason=reason, message=message[:60]):
                place += len(good) + len(message)
                said = told.split(f"item {2 * number + 2} at ")[1].split("\nitem")[0]
                self.assertRegex(said, rf"^{place - len(message)}: refused: {name}\n  .*{reason}")

    def passes(self, data, *arguments, keys=None, as_bytes=None):
        out, told, status = self.verify(data, *arguments, keys=keys)
        self.assertEqual((out, status), (data if as_bytes is None else as_bytes, 0), told)

    # What passes.

    def test_each_algorithm(self):
        good = []
        for number, kid, sign in (
            (-7, b"dev1", ES256), (-9, b"dev1", ES256),
            (-35, b"p384", ecdsa(P384, hashes.SHA384())), (-51, b"p384", ecdsa(P384, hashes.SHA384())),
            (-36, b"p521", ecdsa(P521, hashes.SHA512())), (-52, b"p521", ecdsa(P521, hashes.SHA512())), (-47, b"k1", ecdsa(K1, hashes.SHA256())),
            (-8, b"ed", ED.sign), (-19, b"ed", ED.sign), (-8, b"ed448", ED448.sign), (-53, b"ed448", ED448.sign),
            (-37, b"rsa", pss(RSA, hashes.SHA256())), (-38, b"rsa", pss(RSA, hashes.SHA384())), (-39, b"rsa", pss(RSA, hashes.SHA512())),
            (-257, b"rsa", pkcs(RSA, hashes.SHA256())), (-258, b"rsa", pkcs(RSA, hashes.SHA384())), (-259, b"rsa", pkcs(RSA, hashes.SHA512())),
        ):
            good.append(sign1({1: number}, {4: kid}, sign=sign))
        self.passes(b"".join(good))
        self.assertEqual(self.verify(b"".join(map(flipped, good)), status=1)[0], b"")

    def test_header_layouts(self):
        layouts = [
            ({1: -7}, KID), ({1: -7, 4: b"dev1"}, {}), ({4: b"dev1", 1: -7}, {}), ({1: -7, 3: 0}, KID), ({1: -7, 16: "application/cwt"}, KID),
            ({1: -7}, {4: b"dev1", 33: b"cert"}), ({1: -7, 2: [1, 4], 4: b"dev1"}, {}), ({1: -7, "room": 7}, {4: b"dev1", "x": [1, {2: 3}]}),
        ]
        self.passes(b"".join(sign1(protected, unprotected) for protected, unprotected in layouts))

    def test_rfc_9052_c_2_1(self):
        keys = self.put("wg.json", json.dumps({"keys": [{"kty": "EC", "crv": "P-256", "kid": "11", "alg": "ES256",
            "x": "usWxHK2PmfnHKwXPS54m0kTcGJ90UiglWiGahtagnv8", "y": "IBOL-C3BttVivg-lSreASjpkttcsz-1rb7btKLv8EX4"}]}).encode())
        self.passes(h("d28443a10126a10442313154546869732069732074686520636f6e74656e742e58408eb33e4ca31d1c465ab05aac34cc6b23d58fef5c083106c4"
                      "d25a91aef0b0117e2af9a291aa32e14ab834dc56ed2a223444547e01f11d3b0916e5a4c345cacb36"), keys=keys)

    def test_rfc_8392_a_3_and_a_4(self):
        keys = self.put("rfc8392.cbor", cbor2.dumps([
            {1: 2, 2: b"AsymmetricECDSA256", 3: -7, -1: 1, -2: h("143329cce7868e416927599cf65a34f3ce2ffda55a7eca69ed8919a394d42f0f"),
             -3: h("60f7f1a780d8a783bfb7a2dd6b2796e8128dbbcef9d3d168db9529971a36e7b9")},
            {1: 4, 2: b"Symmetric256", 3: 4, -1: h("403697de87af64611c1d32a05dab0fe1fcb715a86ab435f1ec99192d79569388")}]))
        payload = ("5850a70175636f61703a2f2f61732e6578616d706c652e636f6d02656572696b77037818636f61703a2f2f6c696768742e6578616d706c652e636f6d"
                   "041a5612aeb0051a5610d9f0061a5610d9f007420b71")
        a3 = h("d28443a10126a104524173796d6d65747269634543445341323536" + payload + "58405427c1ff28d23fbad1f29c4c7c6a555e601d6fa29f9179bc3d7438"
               "bacaca5acd08c8d4d4f96131680c429a01f85951ecee743a52b9b63632c57209120e1c9e30")
        a4 = h("d18443a10104a1044c53796d6d6574726963323536" + payload + "48093101ef6d789200")
        self.passes(a3 + a4, "--now", "1443944944", "--any-aud", keys=keys)
        self.passes(a3 + a4, "--now", "2015-10-05T17:09:03Z", "--aud", "coap://light.example.com", "--iss", "coap://as.example.com", keys=keys)
        tagged = h("d83d") + a3 + h("d9d9f7d83d") + a4 + h("d9d9f7") + a3
        self.passes(tagged, "--now", "1443944944", "--any-aud", keys=keys, as_bytes=a3 + a4 + a3)
        self.passes(h("d83dda0000d9f7d83d") + a3, "--now", "1443944944", "--any-aud", keys=keys, as_bytes=a3)
        for reason, *arguments in (
            ("expired (exp 2015-10-05T17:09:04Z, ", "1444064944"), ("not valid yet (exp 2015-10-05T17:09:04Z, nbf 2015-10-04T07:49:04Z", "1443944943"),
            ("for another receiver (exp ", "1443944944", "--aud", "x"), ("is not there (no room, exp ", "1443944944", "--need", "room"),
            ("for a receiver, and none is named here (exp 2015-10-05T17:09:04Z, ", "1443944944"), ("aud 'coap://light.example.com'; it is ", "1443944944"),
        ):
            out, told, status = self.verify(a3, "--now", *arguments, keys=keys)
            self.assertEqual((out, status), (b"", 1))
            self.assertIn(reason, told)
        self.passes(a3, "--now", "1444064950", "--leeway", "10", "--any-aud", keys=keys)

    def test_several_signers(self):
        two = signed([({1: -7}, KID, ecdsa(P256, hashes.SHA256())), ({1: -8}, {4: b"ed"}, ED.sign)])
        one_bad = signed([({1: -7}, KID, ES256), ({1: -8}, {4: b"ed"}, lambda covered: bytes(64))])
        self.passes(two + GOOD + two)
        self.refused([("Judged", "signature 2 of 2: EdDSA under hex:6564.pem, 6564 \\(\"ed\"\\): the signature isn't good", one_bad)])
        out, told, _ = self.verify(one_bad + two + one_bad + GOOD + two, status=1)
        self.assertEqual(out, two + GOOD + two, told)
        # In other encodings, with lists that end by a break.
        parts = cbor2.loads(two).value
        open_list = h("9f") + b"".join(h("9f") + b"".join(map(cbor2.dumps, each)) + h("ff") for each in parts[3]) + h("ff")
        deep = h("a16178") + h("81") * 40 + h("5f4101ff")
        for unprotected, kept in ((h("bfff"), h("a0")), (h("a0"), h("a0")), (deep, h("a16178") + h("81") * 40 + h("4101"))):
            message = h("da000000629f40") + unprotected + h("5f41684169ff") + open_list + h("ff")
            canonical = h("d86284") + h("40") + kept + cbor2.dumps(b"hi") + cbor2.dumps(parts[3])
            self.passes(GOOD + message + GOOD + two, as_bytes=GOOD + canonical + GOOD + two)

    def test_macs(self):
        keys = self.put("macs", cbor2.dumps([{1: 4, 2: b"m", -1: SECRET}, {1: 4, 2: b"w", 3: 4, -1: SECRET}]))
        good = mac0({1: 5}, {4: b"m"})
        others = mac0({1: 6}, {4: b"m"}, name="sha384") + mac0({1: 7}, {4: b"m"}, name="sha512") + mac0({1: 4}, {4: b"w"}, length=8)
        self.passes(good + others, keys=keys)
        self.refused([
            ("Judged", "names no algorithm, which tags of 64 bits need", mac0({1: 4}, {4: b"m"}, length=8)),
            ("Judged", "the tag isn't good", mac0({1: 5}, {4: b"m"}, length=8)),
            ("Judged", "the tag isn't good", mac0({1: 5}, {4: b"m"}, length=0)),
            ("Judged", "for another algorithm \\(HS256, .*: oct for HS256/64 in macs", mac0({1: 5}, {4: b"w"})),
        ], good=good, keys=keys)

    def test_no_secret_goes_to_cose_ask(self):
        made, scalar = tempfile.mkdtemp(dir=self.folder), P256.private_numbers().private_value.to_bytes(32, "big")
        with open(os.path.join(made, "cose-ask"), "w", opener=lambda path, flags: os.open(path, flags, 0o755)) as file:
            file.write(f'#!/bin/sh\ncat "$2" >> {made}/keys\nexec {shutil.which("cose-ask")} "$@"\n')
        keys = self.put("secrets", cbor2.dumps([{1: 4, 2: b"m", -1: SECRET}, {**to_cose(P256, b"dev1"), -4: scalar}]))
        data = GOOD + mac0({1: 5}, {4: b"m"})
        done = subprocess.run([VERIFY, "--keys", keys], input=data, capture_output=True, env={**os.environ, "PATH": made + ":" + os.environ["PATH"]})
        self.assertEqual((done.stdout, done.returncode), (data, 0), done.stderr)
        with open(os.path.join(made, "keys"), "rb") as file:
            self.assertEqual(cbor2.load(file), [{1: 4, 2: b"m", -1: bytes(len(SECRET))}, to_cose(P256, b"dev1")])

    def test_one_pem_is_for_every_key_id(self):
        alone = self.put("alone.pem", pem(P256))
        self.passes(GOOD + sign1({1: -7}, {}) + sign1({1: -7}, {4: b"else"}), keys=alone)
        ids = [b"id%d" % n for n in range(40)]
        several = signed([({1: -7, 4: kid}, {}, ES256) for kid in ids[:20]] + [({1: -7}, {4: kid}, ES256) for kid in ids[20:]])
        opened = h("d8629f40a0") + cbor2.dumps(b"hi") + h("9f") + b"".join(
            h("9f") + b"".join(map(cbor2.dumps, each)) + h("ff") for each in cbor2.loads(several).value[3]) + h("ffff")
        self.passes(several + GOOD + opened + GOOD, keys=alone, as_bytes=several + GOOD + several + GOOD)
        self.passes(b"".join(sign1({1: -7}, {4: b"%d" % n}) for n in range(300)), keys=alone)
        wrong = [flipped(sign1({1: -7}, {4: b"new"})), sign1({1: -8}, {4: b"newer"}), sign1({1: -7}, {4: b"1", -1: [h("a0")] * 3}, sign=ED.sign)]
        self.refused([("Judged", 'ES256 under alone.pem, 6e6577 \\("new"\\): the signature isn\'t good', wrong[0]),
                      ("Judged", 'another type \\(EdDSA, 6e65776572 \\("newer"\\): EC P-256 in alone.pem', wrong[1]),
                      ("Judged", "ES256 under alone.pem", wrong[2])], keys=alone)

    def test_names_of_files(self):
        for name in ("ed", "BEEF", "3131"):
            told = self.verify(GOOD, keys=folder_of(self.folder, name, P256), status=3)[1]
            self.assertIn(f"{name}.pem may be for the key id {name.lower()} in hex or for the text {name}", told)
        for name, kid in (("hex:ed", b"\xed"), ("hex:6564", b"ed"), ("dev", b"dev"), ("eda", b"eda"), ("\u00e9", "\u00e9".encode())):
            self.passes(sign1({1: -7}, {4: kid}), keys=folder_of(self.folder, name, P256))
        self.assertIn("hex:x: not hex", self.verify(GOOD, keys=folder_of(self.folder, "hex:x", P256), status=3)[1])

    def test_two_keys_of_one_kid(self):
        both = self.put("both", cbor2.dumps([to_cose(OTHER, b"dev1"), to_cose(P256, b"dev1")]))
        self.passes(GOOD + sign1({1: -7}, KID, sign=ecdsa(OTHER, hashes.SHA256())), keys=both)

    def test_high_s_passes(self):
        self.passes(sign1({1: -7}, KID, sign=ecdsa(P256, hashes.SHA256(), high=True)))

    def test_canonical_encoding(self):
        long = b"\xd8\x12" + GOOD[1:]
        self.passes(long, as_bytes=GOOD)
        self.refused([("NotShortest", "", long)], "--strict")

    # Wrong inputs.

    def test_wrong_messages(self):
        self.refused([("Judged", *row) for row in (
            ('no key has its key id \\(ES256, 6e6f6e65 \\("none"\\)\\)$', sign1({1: -7}, {4: b"none"})),
            ("no key has its key id \\(ES256, no key id\\)$", sign1({1: -7}, {})),
            ("\\(ES256, 1b5b316d\\)$", sign1({1: -7}, {4: b"\x1b[1m"})),
            ("\\(ES256, (6b){32}\\.\\.\\)$", sign1({1: -7}, {4: b"k" * 900})),
            ("the signature isn't good", flipped(GOOD)),
            ("the signature isn't good", GOOD.replace(b"hi", b"ho")),
            ("the signature isn't good", sign1({1: -7}, KID, aad=b"\1")),
            ("the signature isn't good", sign1({1: -7}, {4: b"11"})),
            ("the signature isn't good", sign1({1: -7}, KID, sign=lambda covered: bytes(64))),
            ("the signature isn't good", sign1({1: -7}, KID, sign=lambda covered: b"\xff" * 64)),
            ('on another curve \\(ES256, 70333834 \\("p384"\\): EC P-384 in p384.pem\\)$', sign1({1: -7}, {4: b"p384"}, sign=ecdsa(P384, hashes.SHA256()))),
            ("on another curve \\(ES384, .*: EC P-256 in dev1.pem", sign1({1: -35}, KID, sign=ecdsa(P256, hashes.SHA384()))),
            ("on another curve \\(ES256, .*: EC secp256k1 in k1.pem", sign1({1: -7}, {4: b"k1"}, sign=ecdsa(K1, hashes.SHA256()))),
            ("on another curve \\(Ed25519, .*: OKP Ed448 in ed448.pem", sign1({1: -19}, {4: b"ed448"}, sign=ED448.sign)),
            ("of another type \\(ES256, .*: OKP Ed25519 in hex:6564.pem", sign1({1: -7}, {4: b"ed"}, sign=ED.sign)),
            ("fewer than 2,048 bits \\(PS256, .*: RSA in short.pem", sign1({1: -37}, {4: b"short"}, sign=pss(SHORT, hashes.SHA256()))),
            ("the signature isn't good", sign1({1: -37}, {4: b"rsa"}, sign=pkcs(RSA, hashes.SHA256()))),
            ("has (6\\d|7[0-2]) bytes, it looks like DER", sign1({1: -7}, KID, sign=ecdsa(P256, hashes.SHA256(), der=True))),
            ("has 63 bytes.*; ES256 has r and s in 32", sign1({1: -7}, KID, sign=lambda covered: ES256(covered)[:63])),
            ("has 0 bytes", sign1({1: -7}, KID, sign=lambda covered: b"")),
            ("has 66 bytes", sign1({1: -7}, KID, sign=ecdsa(P256, hashes.SHA256(), other_size=33))),
            ("the signature isn't good", sign1({1: -8}, {4: b"ed"}, sign=lambda covered: ED.sign(covered)[:63])),
            ("the protected header names no algorithm \\(no algorithm, ", sign1({}, KID)),
            ("the protected header names no algorithm \\(no algorithm, ", sign1({}, {1: -7, 4: b"dev1"})),
            ("a label is in both headers", sign1({1: -7}, {1: -8, 4: b"dev1"})),
            ("a label is in both headers", sign1({1: -7, 4: b"dev1"}, {4: b"11"})),
            ("a critical label is not understood", sign1({1: -7, 2: ["room"], "room": 7}, KID)),
            ("a critical label is not understood", sign1({1: -7, 2: [3], 3: 0}, KID)),
            ("a critical label is not in the protected header", sign1({1: -7, 2: [4]}, KID)),
            ("the unprotected header has critical labels", sign1({1: -7}, {2: [1], 4: b"dev1"})),
            ("not known for such messages \\(HS256, ", sign1({1: 5}, KID)),
            ("not known for such messages \\(the algorithm -65535, ", sign1({1: -65535}, KID)),
            ("not known for such messages \\(ES256, ", mac0({1: -7}, KID)),
            ("of another type \\(HS256, .*: EC P-256 in dev1.pem", mac0({1: 5}, KID, secret=pem(P256))),
            ("its key is that of its recipients", tag(97, [cbor2.dumps({1: 5}), {}, b"hi", bytes(32), [[b"", {1: -6, 4: b"dev1"}, b""]]])),
            ("its key is that of its recipients", tag(97, [h("a10126"), KID, b"hi", ES256(cbor2.dumps(["MAC", h("a10126"), b"", b"hi"])), [[b"", {}, b""]]])),
            ("a critical label is not understood", signed([({1: -7}, KID, ES256)], body=cbor2.dumps({2: ["room"], "room": 1}))),
            ("of a signer: a critical label is not understood", signed([({1: -7, 2: ["room"], "room": 1}, KID, ES256)])),
        )])

    def test_malformed_messages(self):
        self.refused([
            ("NotTagged", "no tag says", cbor2.dumps(b"hi")),
            ("NotTagged", "no tag says", GOOD[1:]),
            ("OtherTag", "--cwt takes it off", b"\xd8\x3d" + GOOD),
            ("OtherTag", "tag 1\\b", tag(1, 5)),
            ("Encrypted", "COSE_Encrypt", tag(16, [b"", {}, b"x"])),
            ("Detached", "payload", tag(18, [b"", {}, None, b"x"])),
            ("Shape", "", tag(18, [b"", {}, b"x"])),
            ("Shape", "", tag(18, [h("a201260126"), {}, b"x", b"y"])),
            ("NoSignature", "", tag(98, [b"", {}, b"x", []])),
        ])

    def test_wrong_tokens(self):
        def token(payload):
            return sign1({1: -7}, KID, payload=payload)
        good = token(claims(_4=NOW + 60))
        self.refused([("Judged", reason, token(payload)) for reason, payload in (
            ("expired \\(exp 2023-11-14T22:13:20Z, iss 'me'; it is 2023-11-14T22:13:20Z\\)$", claims(_4=NOW)),
            ("expired", claims(_4=-1)), ("exp is not a finite time", claims(_4=float("inf"))),
            ("exp is not a finite time", claims(_4=float("-inf"))), ("nbf is not a finite time", claims(_5=float("-inf"))),
            ("for a receiver, and none is named here \\(iss 'me', aud 'you';", claims(_3="you")), ("aud is neither a string nor", claims(_3=None)),
            ("none is named here .*\\['a', 'b'\\]", claims(_3=["a", "b"])), ("aud is neither a string nor", claims(_3=["a", 1])),
            ("not valid yet", claims(_5=NOW + 1)), ("not valid yet", claims(_5=NOW + 0.5)), ("nbf is not a number", claims(_5=1 << 63)),
            ("exp is not a number", claims(_4="2033")), ("exp is not a number", claims(_4=True)), ("exp is not a number", claims(_4=None)),
            ("exp is not a finite time", claims(_4=float("nan"))), ("exp is not a number", cbor2.dumps({4: cbor2.CBORTag(1, NOW + 60)})),
            ("not one item", b"hi"), ("not a map", cbor2.dumps([1])), ("not one item", b""), ("not one item", claims(_4=NOW + 60) + b"\0"),
            ("a claim is there twice", h("a2041a7fffffff0401")), ("an integer of 64 bits nor a string", cbor2.dumps({b"x": 1})),
            ("an integer of 64 bits nor a string", h("a1f401")), ("not one item", claims(_4=NOW + 60)[:-1]),
            ("not one item", h("a16178" + "81" * 300 + "00")),
        )], "--now", str(NOW), good=good)
        self.passes(token(claims(_4=NOW + 0.5, _5=NOW)) + token(claims()), "--now", str(NOW))
        self.assertIn("(no exp, iss 'me'; it is ", self.verify(token(claims()), "--now", str(NOW), "--need", "exp", status=1)[1])
        self.passes(token(cbor2.dumps({3: ["a", "b"]})), "--now", str(NOW), "--aud", "b")
        self.passes(token(cbor2.dumps({3: ["a", "b"]})) + token(claims()), "--now", str(NOW), "--any-aud")
        self.passes(token(cbor2.dumps({3: "a"})))
        undefined = token(h("a10182f7f4"))
        self.assertIn("of another issuer (iss [undefined, False]; it is ", self.verify(undefined, "--cwt", "--iss", "you", status=1)[1])
        self.assertIn("of another issuer (iss 'me'; it is ", self.verify(token(claims()), "--cwt", "--iss", "you", status=1)[1])
        self.assertIn("(no iss, no aud, exp 2", self.verify(token(cbor2.dumps({4: 1 << 33})), "--cwt", "--iss", "you", "--aud", "a", status=1)[1])

    def test_damage(self):
        """What can't be read ends the run, and nothing after it passes; what comes before does."""
        faults = {"d284": "Semantic|Type|Io|Syntax", "f8ff": "Semantic", "ff": "Break", "62ffff": "Syntax", "1c": "Syntax"}
        for damage, reason in faults.items():
            with self.subTest(damage=damage):
                out, told, status = self.verify(GOOD + h(damage) + GOOD, status=4)
                self.assertEqual(out, GOOD)
                self.assertRegex(told, rf"item 1 at 0: passed: ES256, 64657631 \(\"dev1\"\)\nstopped: decode: .*({reason}).*\n  item 2 at {len(GOOD)}: ")
        for length in range(1, len(GOOD), 16):
            out, told, status = self.verify(GOOD + GOOD[:length], status=4)
            self.assertEqual(out, GOOD)
            self.assertIn("stopped: decode: Io(EndOfFile)", told)
        tagged = b"\xd8\x3d" + sign1({1: -7}, KID, claims(_4=NOW + 60))
        out, told, _ = self.verify(tagged + tagged[:-1], "--now", str(NOW), status=4)
        self.assertEqual(out, tagged[2:])
        self.assertIn(f"item 2 at {len(tagged)}: the input ends inside the item", told)

    def test_arguments_and_keys(self):
        for status, words, *arguments in (
            (2, "--keys/--key is missing"), (2, "  b: one word too many", "--keys", self.keys, "a", "b"), (2, "--aad: 'xx' isn't hex", "--keys", self.keys, "--aad", "xx"),
            (2, "less than 0", "--keys", self.keys, "--cwt", "--leeway", "-1"), (2, "less than 0", "--keys", self.keys, "--now", "-1"),
            (2, "are for --cwt", "--keys", self.keys, "--aud", "x"), (2, "are for --cwt", "--keys", self.keys, "--any-aud"),
            (2, "--aud and --any-aud: one of them", "--keys", self.keys, "--cwt", "--aud", "x", "--any-aud"),
            (2, "--json and --payloads: one of them", "--keys", self.keys, "--json", "--payloads"),
            (2, "'1x' isn't seconds, nor as 5m or 1h", "--keys", self.keys, "--cwt", "--leeway", "1x"),
            (2, "standard input can be one of", "--keys", self.keys, "--payload", "-"), (2, "standard input can be one of", "--key", "-"),
            (3, "nosuch: no such file", "--key", self.keys, "nosuch"), (3, "/: a folder", "--keys", self.keys, "/"),
            (4, "/no/x: no such folder", "--keys", self.keys, "-o", "/no/x"),
            (2, "10^16 or more", "--keys", self.keys, "--now", "0", "--leeway", "9" * 400),
            (2, "is no time", "--keys", self.keys, "--now", "9" * 5000), (3, "\\x1b[2J: no such file", "--keys", self.keys, "\x1b[2J"),
            (3, "deep: JSON of too many levels", "--keys", self.put("deep", b"[" * 100_000)),
            (3, "isn't a text in Unicode", "--keys", self.put("half.json", b'{"kty":"oct","k":"AAAA","kid":"\\ud800"}')),
            (2, "is no time", "--keys", self.keys, "--now", "tomorrow"),
            (3, "nosuch: no such file", "--keys", "nosuch"), (3, "no PEM, DER, ssh or JWK", "--keys", self.put("text", b"hello")),
            (3, "it is empty", "--keys", self.put("empty", b"")), (3, "no key in it", "--keys", self.put("none.json", b'{"keys": []}')),
            (3, "not a good key", "--keys", self.put("bad.pem", b"-----BEGIN PUBLIC KEY-----\nAAAA\n-----END PUBLIC KEY-----\n")),
            (3, "openssl x509", "--keys", self.put("cert.pem", b"-----BEGIN CERTIFICATE-----\nAAAA\n-----END CERTIFICATE-----\n")),
            (3, "not a good key", "--keys", self.put("point", cbor2.dumps([{1: 2, -1: 1, -2: bytes(32), -3: bytes(32)}]))),
            (3, "isn't for signatures", "--keys", self.put("x25519", cbor2.dumps([{1: 1, -1: 4, -2: bytes(32)}]))),
            (3, "its use is 'enc'", "--keys", self.put("enc", b'{"kty":"oct","k":"AAAA","use":"enc"}')),
            (3, "without padding", "--keys", self.put("pad", b'{"kty":"oct","k":"AAA="}')),
            (3, "several keys in one file", "--keys", self.put("two.pem", pem(P256) + pem(OTHER))),
            (3, "neither to sign nor to verify", "--keys", self.put("wrap", cbor2.dumps({**to_cose(P256, b"x"), 4: [5]}))),
            (3, "an alg that is neither", "--keys", self.put("alg", cbor2.dumps({**to_cose(P256, b"x"), 3: [-7]}))),
            (3, "'k' is there twice", "--keys", self.put("twice", b'{"kty":"oct","k":"AAAA","k":"AAAB"}')),
            (3, "isn't that of the public", "--keys", self.put("halves", cbor2.dumps({**to_cose(P256, b"x"), -4: bytes(31) + b"\1"}))),
        ):
            with self.subTest(words=words):
                self.assertIn(words, run("cose-verify", *arguments, status=status)[1])
        some = self.put("some", cbor2.dumps([{1: 99}, to_cose(P256, b"dev1")]))
        self.assertIn("some: key 1: the kty 99", self.verify(GOOD, keys=some, status=0)[1])
        limited = self.put("limited", cbor2.dumps([{**to_cose(P256, b"dev1"), 4: [1]}, {**to_cose(P256, b"dev1"), 3: -9}]))
        self.assertRegex(self.verify(GOOD, keys=limited, status=1)[1], 
                         "for other operations \\(ES256, .*: EC P-256 in limited, EC P-256 for ESP256 in limited")
        self.assertEqual(self.verify(b"", status=0)[1], "passed 0, refused 0\n")
        # Keys that no message can name, or no rule takes, are in nobody's way.
        odd = [{**to_cose(P256, b"dev1"), 3: alg} for alg in (-1, 9999, -70_000, "ES256")]
        self.passes(GOOD, keys=self.put("odd", cbor2.dumps([*odd, {**to_cose(P256, b""), 4: [2]}, to_cose(P256, b"dev1")])))
        out, told, _ = self.verify(sign1({1: -7}, {}) + GOOD, keys=self.put("empty.kid", cbor2.dumps([to_cose(P256, b""), *odd])), status=1)
        self.assertRegex(told, "(?s)no key has its key id.*for another algorithm")

    def test_one_message(self):
        for status, words, out, data in (
            (0, "passed 1, refused 0", GOOD, GOOD), (1, "passed 0, refused 1", b"", flipped(GOOD)),
            (1, "refused: the input is empty", b"", b""),
            (1, "refused: more than one message", b"", GOOD + GOOD), (1, "refused: more than one message", b"", GOOD * 2000),
            (1, "refused: more than one message", b"", GOOD + GOOD[:9]), (1, "refused: more than one message", b"", GOOD + b"\xff"),
            (4, "stopped: decode: Io(EndOfFile)\n  item 1 at 0: ", b"", GOOD[:-1]), (4, "stopped: decode: ", b"", b"\xff" + GOOD),
        ):
            with self.subTest(words=words):
                wrote, told, _ = self.verify(data, "--one", status=status)
                self.assertEqual(wrote, out)
                self.assertIn(words, told)
        large = sign1({1: -7}, KID, payload=bytes(300_000))
        self.assertEqual(self.verify(large, "--one", status=0)[0], large)
        token = sign1({1: -7}, KID, payload=claims(_4=NOW + 60))
        self.assertEqual(self.verify(b"\xd8\x3d" + token, "--one", "--now", str(NOW), status=0)[0], token)
        process = subprocess.Popen([VERIFY, "--keys", self.keys, "--one"], stdin=subprocess.PIPE, stdout=subprocess.PIPE,
                                   stderr=subprocess.PIPE)
        os.write(process.stdin.fileno(), GOOD)
        time.sleep(0.5)
        os.write(process.stdin.fileno(), b"\0")    # which ends the run, though there may be more to come
        self.assertEqual((process.stdout.read(), process.stderr.read(), process.wait()), (b"", b"refused: more than one message\n", 1))
        for pipe in (process.stdin, process.stdout, process.stderr):
            pipe.close()

    def test_what_is_written(self):
        """Messages from a file, their payloads or lines of JSON, into a new file."""
        token = sign1({1: -7}, KID, payload=cbor2.dumps({1: "me", 4: NOW + 60, "room": [b"\1", 1.5, {2: None}], 8: cbor2.CBORTag(1, 2)}))
        both, text = self.put("both.cbor", GOOD + flipped(GOOD)), f'item 1 at 0: passed: ES256, 64657631 ("dev1")\n'
        out, told, _ = self.verify(b"", both, status=1)
        self.assertEqual((out, told[:len(text)]), (GOOD, text))
        self.assertEqual(self.verify(b"", both, "--payloads", status=1)[0], b"hi")
        self.assertEqual(self.verify(b"", both, "--quiet", "--json", status=1)[1].count("\n"), 3)
        signers = [{"alg": "ES256", "kid_hex": "64657631", "kid": "dev1"}]
        lines = [{"item": 1, "offset": 0, "verdict": "passed", "signatures": signers, "payload_hex": "6869", "payload": "hi"},
                 {"item": 2, "offset": len(GOOD), "verdict": "refused: Judged",
                  "reason": "ES256 under dev1.pem, 64657631 (\"dev1\"): the signature isn't good"}]
        self.assertEqual(list(map(json.loads, self.verify(b"", both, "--json", status=1)[0].splitlines())), lines)
        line = json.loads(self.verify(token, "--json", "--now", str(NOW), status=0)[0])
        self.assertEqual(line["claims"], {"iss": "me", "exp": NOW + 60, "room": ["hex:01", 1.5, {"2": None}], "cnf": {"tag": 1, "value": 2}})
        # A label that could be taken for another one isn't shown as if it were that.
        for other in ({"iss": "me"}, {"1": "me"}, {4: NOW + 60, "exp": 0}, {"x": {"-1": 0}}):
            line = json.loads(self.verify(sign1({1: -7}, KID, payload=cbor2.dumps(other)), "--json", "--now", str(NOW), status=0)[0])
            self.assertEqual(line["payload_hex"], cbor2.dumps(other).hex())
            self.assertNotIn("claims", line)
        new = os.path.join(self.folder, "passed.cbor")
        self.assertEqual(self.verify(b"", both, "-o", new, status=1)[0], b"")
        with open(new, "rb") as file:
            self.assertEqual(file.read(), GOOD)
        self.assertIn(f"{new}: it is there already", self.verify(GOOD, "-o", new, status=4)[1])
        self.verify(flipped(GOOD), "-o", new + "2", status=1)
        self.assertFalse(os.path.exists(new + "2"))
        two = signed([({1: -7}, KID, ES256), ({1: -8}, {4: b"ed"}, ED.sign)])
        self.assertIn('passed: ES256, 64657631 ("dev1"); EdDSA, 6564 ("ed")\n', self.verify(two, status=0)[1])
        self.assertIn("passed: ES256, no key id\n", self.verify(sign1({1: -7}, {}), keys=self.put("alone.pem", pem(P256)), status=0)[1])

    def test_detached_payload(self):
        image, other = self.put("image", b"image" * 30_000), self.put("other", b"imagE" * 30_000)
        whole = sign1({1: -7}, KID, payload=b"image" * 30_000)
        parts = cbor2.loads(whole).value
        message = tag(18, [*parts[:2], None, parts[3]])
        alone = self.put("alone.pem", pem(P256))
        for keys in (self.keys, alone):
            self.passes(message, "--payload", image, keys=keys, as_bytes=whole)
            self.passes(b"\xd2\x9f" + message[2:] + b"\xff", "--payload", image, keys=keys, as_bytes=whole)
            for status, words, data, path in (
                (1, "refused: Judged\n  ES256 under ", message, other), (1, "one that doesn't", whole, image), (1, "one that doesn't", whole, other),
                (1, "more than one message", message * 2, image), (1, "the input is empty", b"", image), (3, "nosuch: no such file", message, "nosuch"),
                (1, "refused: Shape\n", tag(18, [b"", {}, None]), image), (1, "refused: OtherTag\n", b"\xd8\x3d" + message, image),
            ):
                with self.subTest(words=words):
                    out, told, _ = self.verify(data, "--payload", path, keys=keys, status=status)
                    self.assertEqual(out, b"")
                    self.assertIn(words, told)
        self.assertIn("--payload names the file", self.verify(message, status=1)[1])
        token = sign1({1: -7}, KID, payload=claims(_4=NOW + 60))
        parts = cbor2.loads(token).value
        detached, payload = b"\xd8\x3d" + tag(18, [*parts[:2], None, parts[3]]), self.put("claims", parts[2])
        self.passes(detached, "--payload", payload, "--now", str(NOW), as_bytes=token)
        self.assertIn("expired", self.verify(detached, "--payload", payload, "--now", str(NOW + 60), status=1)[1])

    def test_allowed_algorithms(self):
        """By the rules of cose-ask over keys that are for these alone."""
        self.passes(GOOD, "--alg", "EdDSA", "--alg", "ES256")
        self.refused([("Judged", "for another algorithm \\(ES256, ", sign1({1: -7}, KID))], "--alg", "ESP256", good=sign1({1: -9}, KID))
        macs = self.put("macs", cbor2.dumps([{1: 4, 2: b"m", -1: SECRET}, {**to_cose(P256, b"dev1"), 3: -9}]))
        self.assertIn("no key has its key id", self.verify(GOOD, "--alg", "ES256", keys=macs, status=1)[1])
        self.assertIn("--alg: no key is for HS256/64", self.verify(GOOD, "--alg", "HS256/64", keys=macs, status=3)[1])
        self.assertIn("'none': not one of ES256 ", self.verify(GOOD, "--alg", "none", status=3)[1])

    def test_tokens_that_are_not_checked(self):
        """Said once, of the first message that passes."""
        token, note = sign1({1: -7}, KID, payload=claims(_4=1)), "  item 2 looks like a token; without --cwt its exp and nbf aren't checked\n"
        self.assertEqual(self.verify(flipped(GOOD) + token * 2, "--quiet", status=1)[1].split("isn't good\n")[1], note + "passed 2, refused 1\n")
        for payload in (claims(), b"hi", b"", b"\xa1\x04", cbor2.dumps({4: bytes(5000)})):
            self.assertNotIn("token", self.verify(sign1({1: -7}, KID, payload=payload), status=0)[1])
        self.assertNotIn("token", self.verify(token, "--now", "0", status=0)[1])

    def test_names_that_a_terminal_obeys(self):
        folder = folder_of(self.folder, "dev1", P256)
        with open(os.path.join(folder, "\x1b[2J\n.pem"), "wb") as file:
            file.write(b"-----BEGIN nothing")
        told = self.verify(GOOD, keys=folder, status=0)[1]
        self.assertIn("/\\x1b[2J\\x0a.pem: not a good key", told)
        self.assertNotIn("\x1b", told)

    def test_what_nobody_expects(self):
        """Never Python's own status 1, and one line."""
        self.put("cryptography.py", b"raise ValueError('an error\\nthat nobody expects')")
        for tool in ("cose-verify", "cose-key", "cose-make"):
            done = subprocess.run([os.path.join(HERE, tool)], capture_output=True, env={"PYTHONPATH": self.folder})
            line = f"{tool}: ValueError: an error\\x0athat nobody expects\n".encode()
            self.assertEqual((done.returncode, done.stderr), (70, line))
            folder = os.open("/", os.O_RDONLY)
            done = subprocess.run([os.path.join(HERE, tool), "--help"], stdin=folder, capture_output=True)
            os.close(folder)
            self.assertEqual((done.returncode, done.stdout), (4, b""))
            self.assertRegex(done.stderr, rb"^(stopped|cose-.*): standard input is a folder\n$")

    # What a sender chooses, and what it costs.

    def many_signatures(self, payload, count):
        """A COSE_Sign whose records are the square of it."""
        return h("d8628440a0") + cbor2.dumps(bytes(payload)) + h("9f") + h("8340a040") * count + h("ff")

    def test_memory(self):
        many = self.many_signatures(20_000, 5000)
        peak, out, told, status = peak_of("--keys", self.keys, data=GOOD + many + GOOD + many + many + GOOD)
        self.assertEqual((out, status), (GOOD * 3, 1), told)
        self.assertIn("\n  the protected header names no algorithm", told)
        self.assertLess(peak, 100)
        peak, out, told, status = peak_of("--keys", self.keys, data=GOOD + bytes(200_000) + GOOD)
        self.assertEqual((out, status), (GOOD * 2, 1))
        self.assertLess(peak, 150)

    def test_memory_of_a_message_that_passes(self):
        """It isn't that of its payload for each signature."""
        message = signed([({1: -7}, KID, ES256), ({1: -8}, {4: b"ed"}, ED.sign)] * 20, payload=bytes(1 << 20))
        peak, out, told, status = peak_of("--keys", self.keys, data=message + GOOD)
        self.assertEqual((out, status), (message + GOOD, 0), told)
        self.assertLess(peak, 70)

    def test_signers_whose_bytes_differ(self):
        """Each signature is checked over its own bytes, however much they share with those of the first one."""
        ed = {4: b"ed"}
        headers = [{1: -8}, {1: -8, "x": b""}, {1: -8, "x": bytes(40)}, {1: -8, "x": bytes(300)}, {1: -8, "y": bytes(300)}, {1: -8}, {4: b"ed", 1: -8}]
        for body in (b"", cbor2.dumps({"x": bytes(40)})):
            for payload in (b"", bytes(8), bytes(300)):
                for first in headers:
                    signers = [(each, {} if 4 in each else ed, ED.sign) for each in (first, *headers)]
                    good = signed(signers, payload, body)
                    self.passes(good)
        place = good.index(b"\x61y")
        self.refused([("Judged", "signature \\d of 8: EdDSA under", good[:place] + b"\x61z" + good[place + 2:])])

    def test_limited_memory(self):
        limited = ["bash", "-c", 'ulimit -v 250000; exec "$@"', "bash"]
        if subprocess.run([*limited, "cose-gate", "--version"], capture_output=True).returncode:
            self.skipTest("these programs don't run under a limit")
        many = self.many_signatures(20_000, 5000)
        done = subprocess.run([*limited, VERIFY, "--keys", self.keys], input=GOOD + many + GOOD, capture_output=True)
        self.assertEqual((done.stdout, done.returncode), (GOOD * 2, 1), done.stderr)
        large = h("5a0a000000") + bytes(150 << 20)
        done = subprocess.run([*limited, VERIFY, "--keys", self.keys], input=GOOD + large, capture_output=True)
        self.assertEqual((done.stdout, done.returncode), (GOOD, 4), done.stderr)
        self.assertRegex(done.stderr, b"\nstopped: memory\n$")

    def counted(self, *names):
        """An environment in which each run of these programs adds a line to a file, and the file."""
        made = tempfile.mkdtemp(dir=self.folder)
        for name in names:
            with open(os.path.join(made, name), "w", opener=lambda path, flags: os.open(path, flags, 0o755)) as file:
                file.write(f'#!/bin/sh\necho >> {made}/runs\nexec {shutil.which(name)} "$@"\n')
        return {**os.environ, "PATH": made + ":" + os.environ["PATH"]}, os.path.join(made, "runs")

    def test_runs_of_programs(self):
        """Not one for each small COSE_Sign, nor for each byte of a sender who pauses after it."""
        environment, runs = self.counted("cose-ask")
        small = self.many_signatures(1, 1)
        done = subprocess.run([VERIFY, "--keys", self.keys], input=GOOD + small * 300 + GOOD, capture_output=True, env=environment)
        self.assertEqual((done.stdout, done.returncode, os.path.getsize(runs)), (GOOD * 2, 1, 1))
        environment, runs = self.counted("cose-ask")
        process = subprocess.Popen([VERIFY, "--keys", self.keys], stdin=subprocess.PIPE, stdout=subprocess.PIPE, stderr=subprocess.DEVNULL,
                                   env=environment)
        message = sign1({1: -7}, KID, payload=bytes(5000))
        os.write(process.stdin.fileno(), message[:4000])
        for place in range(4000, 4050):
            time.sleep(0.025)
            os.write(process.stdin.fileno(), message[place:place + 1])
        os.write(process.stdin.fileno(), message[4050:])
        self.assertEqual(os.read(process.stdout.fileno(), 1 << 16), message)    # though the sender waits
        process.stdin.close()
        self.assertEqual(process.wait(), 0)
        process.stdout.close()
        self.assertLess(os.path.getsize(runs), 25)

    def test_help_and_version(self):
        for tool in ("cose-verify", "cose-key", "cose-make"):
            self.assertTrue(run(tool, "--help", status=0)[0].startswith(b"usage: " + tool.encode()))
            self.assertRegex(run(tool, "x", "--version", status=0)[0].decode(), rf"^{tool} 0\.8( \(\d{{4}}-\d\d-\d\d, [0-9a-f]+\))?\n$")
            self.assertEqual(run(tool, "--strikt", "-h", status=0)[0], run(tool, "--help", status=0)[0])
            with open("/dev/full", "wb") as full:
                self.assertEqual(subprocess.run([os.path.join(HERE, tool), "--help"], stdout=full, stderr=full).returncode, 4)
        self.assertIn(b"-7 ES256", run("cose-verify", "--help-algorithms", status=0)[0])

    def test_full_disk(self):
        """A message that can't be written ends the run; a line that can't be doesn't matter."""
        for full, status in ((">", 4), ("2>", 0)):
            command = f'exec "$0" --keys "$1" {full} /dev/full'
            done = subprocess.run(["bash", "-c", command, VERIFY, self.keys], input=GOOD, capture_output=True)
            self.assertEqual((done.returncode, done.stdout), (status, GOOD if status == 0 else b""), done.stderr)

    def test_programs_that_are_not_there(self):
        alone = shutil.copytree(HERE, os.path.join(self.folder, "alone", "tools"))  # far from the programs of a checkout
        done = subprocess.run([f"{alone}/cose-verify", "--keys", self.keys], input=GOOD, capture_output=True, env={"PATH": "/nonexistent"})
        self.assertEqual((done.returncode, done.stdout), (70, b""))
        self.put("cryptography.py", b"raise ImportError")
        for tool in ("cose-verify", "cose-key", "cose-make"):
            done = subprocess.run([os.path.join(HERE, tool)], capture_output=True, env={"PYTHONPATH": self.folder})
            self.assertEqual((done.returncode, done.stderr.count(b"\n")), (70, 1))

    def test_closed_streams(self):
        for closed in ("<&-", ">&-", "2>&-"):
            command = f'exec "$0" "$@" {closed}'
            done = subprocess.run(["bash", "-c", command, VERIFY, "--keys", self.keys], input=GOOD, capture_output=True)
            self.assertEqual((done.returncode, done.stdout), (4, b""), closed)

    def test_blocks(self):
        """More than a block, with items across its ends, and the same lines as of cose-pass with all records."""
        items = [GOOD, flipped(GOOD), sign1({1: -7}, KID, payload=bytes(3000)), cbor2.dumps(b"x" * 5000)]
        data = b"".join(items[n % 4] for n in range(1600)) + sign1({1: -7}, KID, payload=bytes(3 << 20)) + GOOD
        out, told, _ = self.verify(data, status=1)
        accepted, _, _ = run_program("cose-ask", "--lines", data=data)
        kept = self.put("kept", b"".join(line for line in accepted.splitlines(True) if flipped(GOOD)[-64:].hex().encode() not in line))
        wanted, lines, _ = run_program("cose-pass", kept, data=data)
        self.assertTrue(out == wanted)
        self.assertEqual(re.sub("\n  .*|: ES256, .*", "", told), lines.decode())

    def test_live(self):
        """A message is written while the sender waits."""
        process = subprocess.Popen([VERIFY, "--keys", self.keys], stdin=subprocess.PIPE, stdout=subprocess.PIPE,
                                   stderr=subprocess.DEVNULL)
        for _ in range(3):
            os.write(process.stdin.fileno(), GOOD + GOOD[:40])
            self.assertEqual(os.read(process.stdout.fileno(), 1 << 16), GOOD)
            os.write(process.stdin.fileno(), GOOD[40:])
            self.assertEqual(os.read(process.stdout.fileno(), 1 << 16), GOOD)
        process.stdin.close()
        self.assertEqual(process.wait(), 0)
        process.stdout.close()

    # cose-key and cose-make.

    def test_make_and_verify(self):
        for algorithm in "ES256 ES384 ES512 ES256K ESP256 EdDSA Ed25519 Ed448 PS256 RS512 HS256 HS384 HS512 HS256/64".split():
            with self.subTest(algorithm=algorithm):
                private = os.path.join(self.folder, algorithm.replace("/", "_") + ".key")
                run("cose-key", "--new", algorithm, "--kid", "dev9", "-o", private, status=0)
                self.assertEqual(os.stat(private).st_mode & 0o777, 0o600)
                keys = self.put("made", run("cose-key", private)[0])
                layouts = [(), ("--tag61",), ("--protected", '{"4": "hex:64657639"}'), ("--protected", '{"3": 60}'),
                           ("--unprotected", '{"33": "hex:0102", "x": [1.5, true, null]}')]
                cwt = ("--cwt", '{"iss": "me", "exp": "+1h", "cti": "hex:07"}')
                for arguments in layouts if algorithm in ("ES256", "HS256") else layouts[:1]:
                    made = run("cose-make", "--key", private, *cwt, *arguments, status=0)[0]
                    self.passes(made, "--cwt", "--strict", keys=keys, as_bytes=made[2:] if "--tag61" in arguments else made)
        again = run("cose-key", "--new", "ES256", "--kid", "a", "-o", private, status=4)[:2]
        self.assertEqual(again, (b"", f"cose-key: {private}: it is there already\n"))

    def test_what_is_made(self):
        secret = self.put("secret", b"00" * 31 + b"01\n")
        key, keys = os.path.join(self.folder, "no.kid"), os.path.join(self.folder, "new.keys")
        run("cose-key", "hex:" + secret, "-o", key, status=0)
        made = run("cose-make", "--key", key, "--kid", "01", "--payload", "-", "--aad", "01", data=b"hello", status=0)[0]
        message = cbor2.loads(made)
        self.assertEqual((message.tag, message.value[:3]), (17, [h("a10105"), {4: b"01"}, b"hello"]))
        covered = cbor2.dumps(["MAC0", h("a10105"), b"\1", b"hello"])
        self.assertEqual(message.value[3], hmac.new(bytes(31) + b"\1", covered, "sha256").digest())
        run("cose-key", "hex:" + secret, "--kid", "hex:3031", "--alg", "HS256", "-o", keys, status=0)
        out, told, status = run_program("cose-gate", keys, "01", data=made)
        self.assertEqual((out, status), (made, 0), told)
        private = self.put("dev1.private", private_pem(P256))
        given = {"iss": "a", "sub": "b", "aud": ["c", "d"], "exp": "2026-11-27T21:44:19Z", "nbf": 1.9, "iat": 0, "cti": "id",
                 "-70000": {"1": "hex:ff"}, "scope": "read", "nonce": "hex:00", "intuse": 1, "room": 7}
        wanted = {1: "a", 2: "b", 3: ["c", "d"], 4: 1795815859, 5: 1, 6: 0, 7: b"id", -70000: {1: b"\xff"}, 9: "read", 10: b"\0", 275: 1, "room": 7}
        made = os.path.join(self.folder, "made.cbor")
        run("cose-make", "--keys", private, "--kid", "dev1", "--cwt", json.dumps(given), "-o", made, status=0)
        with open(made, "rb") as file:
            token = file.read()
        self.assertEqual(cbor2.loads(cbor2.loads(token).value[2]), wanted)
        self.passes(token)
        for path, why in ((made, "it is there already"), (made + "/x", "Not a directory"), ("/nosuch/x", "no such folder")):
            told = run("cose-make", "--keys", private, "--cwt", "{}", "-o", path, status=4)[1]
            self.assertEqual(told, f"cose-make: {path}: {why}\n")
        given = self.put("given.json", b'{"iat": "now", "exp": "+1m"}')
        made = cbor2.loads(run("cose-make", "--key", private, "--cwt", "@" + given, status=0)[0]).value
        times = cbor2.loads(made[2])
        self.assertTrue(time.time() - 60 < times[6] == times[4] - 60 <= time.time())
        detached = cbor2.loads(run("cose-make", "--key", private, "--payload", given, "--detached", status=0)[0]).value
        with open(given, "rb") as file:
            covered = cbor2.dumps(["Signature1", detached[0], b"", file.read()])
        r, s = (int.from_bytes(detached[3][at:at + 32], "big") for at in (0, 32))
        P256.public_key().verify(utils.encode_dss_signature(r, s), covered, ec.ECDSA(hashes.SHA256()))
        self.assertIsNone(detached[2])

    def test_wrong_makes(self):
        private, public = self.put("w.private", private_pem(P256)), self.put("w.pem", pem(P256))
        mine, cwt = ("--key", private), ("--key", private, "--cwt")
        both = self.put("both", cbor2.dumps([to_cose(P256, b"dev1"), to_cose(OTHER, b"\1")]))
        text = self.put("text.json", b"{x")
        for status, words, *arguments in (
            (2, "--key/--keys is missing"), (2, "one of --cwt and --payload is missing", *mine), (2, "--aad: 'x' isn't hex", *cwt, "{}", "--aad", "x"),
            (2, "--cwt: a word has to follow", *cwt), (2, "--cwt and --payload: one of them", *cwt, "{}", "--payload", "-"),
            (2, "--tag61: it takes no word", *cwt, "{}", "--tag61=1"), (2, "--keyy: no such option", "--keyy", private), (2, "x: one word too", *cwt, "{}", "x"),
            (3, "a public key", "--key", public, "--cwt", "{}"), (3, "nosuch: no such file", "--key", "nosuch", "--cwt", "{}"),
            (3, "--cwt: not JSON at character 2\n", *cwt, "{"), (3, "--cwt: not a JSON object", *cwt, "[]"),
            (3, f"to read the file {text}: --cwt @{text}", *cwt, text), (3, f"{text}: not JSON at character 2\n", *cwt, "@" + text),
            (3, f"{both} has 2 keys, choose one by --kid: hex:01, dev1", "--key", both, "--cwt", "{}"),
            (3, "2 keys, none with 78 (\"x\"): hex:01, dev1", "--key", both, "--cwt", "{}", "--kid", "x"),
            (3, "there twice", *cwt, '{"iss": "a", "iss": "b"}'), (3, "there twice", *cwt, '{"iss": "a", "1": "b"}'),
            (3, "isn't like +1h", *cwt, '{"exp": "soon"}'), (3, "not a time", *cwt, '{"exp": true}'), (3, "iss: not a text", *cwt, '{"iss": 5}'),
            (3, "isn't a text in Unicode", *cwt, '{"iss": "\\ud800"}'), (3, "isn't a text in Unicode", *cwt, '{"cti": "\\ud800"}'),
            (3, "too many levels", *cwt, '{"room": ' + "[" * 800 + "]" * 800 + "}"), (3, "too many levels", *cwt, "[" * 100_000),
            (3, "isn't like +1h", *cwt, '{"exp": "+%sh"}' % ("9" * 5000)), (3, "isn't like +1h", *cwt, '{"exp": "%s"}' % ("9" * 5000)),
            (3, "more than 64 bits", *cwt, '{"%s": 1}' % ("9" * 5000)), (3, "more than 64 bits", *cwt, '{"exp": "+%sh"}' % ("9" * 400)),
            (3, "thousands of digits", *cwt, '{"exp": %s}' % ("9" * 5000)),
            (3, "not hex", *cwt, '{"cti": "hex:0"}'), (3, "isn't for ES384", *cwt, "{}", "--alg", "ES384"),
            (3, "isn't for HS256/64", *cwt, "{}", "--alg", "HS256/64"), (3, "not one of", *cwt, "{}", "--alg", "none"),
            (3, "label 4 is in both", *cwt, "{}", "--kid", "a", "--protected", '{"4": "hex:00"}'), (3, "nosuch: no such file", *mine, "--payload", "nosuch"),
        ):
            with self.subTest(words=words):
                out, told, _ = run("cose-make", *arguments, status=status)
                self.assertEqual(out, b"")
                self.assertIn(words, told)

    def test_keys(self):
        private = self.put("k.private", private_pem(P256))
        made = run("cose-key", private, "--kid", "dev1", status=0)[0]
        self.assertEqual(cbor2.loads(made), [to_cose(P256, b"dev1")])
        self.assertEqual(run("cose-key", private, "--kid", "dev1", "--pem", status=0)[0], pem(P256))
        whole = os.path.join(self.folder, "whole")
        run("cose-key", private, "--kid", "dev1", "--alg", "ES256", "--private", "-o", whole, status=0)
        with open(whole, "rb") as file:
            self.assertEqual(cbor2.load(file), [{**to_cose(P256, b"dev1"), 3: -7, -4: P256.private_numbers().private_value.to_bytes(32, "big")}])
        jwks = self.put("set.json", json.dumps({"keys": [
            {"kty": "oct", "kid": "a", "k": "c2VjcmV0IHNlY3JldCBzZWNyZXQ", "alg": "HS256"},
            {"kty": "OKP", "crv": "Ed25519", "x": "11qYAYKxCrfVS_7TyWQHOg7hcvPapiMlrwIaaPcHURo",
             "d": "nWGxne_9WmC6hEr0kuwsxERJxWl7MmkZcDusAxyuf2A", "kid": "b", "key_ops": ["sign"]},
            {"kty": "EC", "crv": "P-999", "x": "AA", "y": "AA"},
        ]}).encode())
        public = h("d75a980182b10ab7d54bfed3c964073a0ee172f3daa62325af021a68f707511a")
        entries = [{1: 4, 2: b"a", 3: 5, -1: b"secret secret secret"}, {1: 1, 2: b"b", 4: [2], -1: 6, -2: public}]
        made, told, _ = run("cose-key", jwks, whole, status=0)
        self.assertEqual(cbor2.loads(made), [*entries, {**to_cose(P256, b"dev1"), 3: -7}])
        self.assertIn("key 3: the curve 'P-999'", told)
        self.assertEqual(run("cose-key", folder_of(self.folder, "dev1", P256), status=0)[0], cbor2.dumps([to_cose(P256, b"dev1")]))
        with open(os.path.join(self.folder, "shown"), "wb") as file:
            done = subprocess.run([os.path.join(HERE, "cose-key"), jwks], stdout=file, stderr=subprocess.PIPE)
        self.assertEqual((done.returncode, os.stat(file.name).st_size), (3, 0))
        self.assertIn("2 keys have", run("cose-key", whole, whole, status=0)[1])
        self.assertIn("can be guessed", run("cose-key", "hex:-", data=b"0102", status=0)[1])
        for name in (public_der(P256), public_ssh(P256), private_der(P256), private_ssh(P256)):
            self.assertEqual(run("cose-key", "-", "--kid", "dev1", data=name, status=0)[0], cbor2.dumps([to_cose(P256, b"dev1")]))
        self.assertEqual(cbor2.loads(run("cose-key", "raw:-", data=SECRET, status=0)[0]), [{1: 4, -1: SECRET}])

    def test_thumbprint(self):
        key = {-1: 1, 1: 2, 2: b"other", -2: h("65eda5a12577c2bae829437fe338701a10aaa375e1bb5b5de108de439c08551d"),
               -3: h("1e52ed75701163f7f9e40ddf9f341b3dc9ba860af7e0ca7ca7e9eecd0084d19c")}
        made = cbor2.loads(run("cose-key", "--thumbprint", self.put("rfc9679", cbor2.dumps(key)), status=0)[0])
        self.assertEqual(made, [{**key, 2: h("496bd8afadf307e5b08c64b0421bf9dc01528a344a43bda88fadd1669da253ec")}])

    def test_wrong_keys(self):
        brainpool = ec.generate_private_key(ec.BrainpoolP256R1())
        for status, words, *arguments in (
            (2, "no key: name a file, or --new ALG"), (2, "--kid and --thumbprint: one of them", "--new", "ES256", "--kid", "a", "--thumbprint"),
            (3, ": it is empty", self.put("empty", b"")), (3, ": it is empty", "raw:" + self.put("empty", b"")), (3, ": not hex", "hex:" + self.put("odd", b"0")),
            (3, "nosuch: no such file", "nosuch"), (3, "nosuch: no such file", "raw:nosuch"), (3, "in files KID.pem", tempfile.mkdtemp(dir=self.folder)),
            (3, "raw:FILE", self.put("random", b"\0" + SECRET)), (3, "an RSA key of 1024 bits", self.put("short.pem", pem(SHORT))),
            (3, "brainpoolP256r1: not for signatures here", self.put("brain.pem", pem(brainpool))), (3, "brainpoolP256r1: not", self.put("brain.der", public_der(brainpool))),
            (3, "the curve 'brainpoolP256r1'", self.put("brain", cbor2.dumps({1: 2, -1: 256, -2: SECRET, -3: SECRET}))),
            (3, "X25519: not for signatures", self.put("x.pem", pem(x25519.X25519PrivateKey.generate()))),
            (3, "an encrypted private key", self.put("locked.pem", P256.private_bytes(
                serialization.Encoding.PEM, serialization.PrivateFormat.PKCS8, serialization.BestAvailableEncryption(b"word")))),
            (3, "several keys in one file", self.put("two.pub", public_ssh(P256) + b"\n" + public_ssh(OTHER))),
            (3, "not JSON at character 2", self.put("bad.jwk", b"{x")), (3, "no thumbprint of a secret", "--thumbprint", "--new", "HS256"),
            (3, "for one key, and there are 2: hex:01, dev1", self.put("both", cbor2.dumps([to_cose(P256, b"dev1"), to_cose(OTHER, b"\1")])), "--kid", "a"),
        ):
            with self.subTest(words=words):
                out, told, _ = run("cose-key", *arguments, status=status)
                self.assertEqual(out, b"")
                self.assertIn(words, told)
                self.assertTrue(status == 2 or told.startswith("cose-key: ") and told.count("\n") == 1, told)


def public_der(key):
    return key.public_key().public_bytes(serialization.Encoding.DER, serialization.PublicFormat.SubjectPublicKeyInfo)


def public_ssh(key):
    return key.public_key().public_bytes(serialization.Encoding.OpenSSH, serialization.PublicFormat.OpenSSH)


def private_der(key):
    return key.private_bytes(serialization.Encoding.DER, serialization.PrivateFormat.TraditionalOpenSSL, serialization.NoEncryption())


def private_ssh(key):
    return key.private_bytes(serialization.Encoding.PEM, serialization.PrivateFormat.OpenSSH, serialization.NoEncryption())


def folder_of(folder, name, key):
    made = tempfile.mkdtemp(dir=folder)
    with open(os.path.join(made, name + ".pem"), "wb") as file:
        file.write(pem(key))
    return made


def to_cose(key, kid):
    public = key.public_key().public_numbers()
    return {1: 2, 2: kid, -1: 1, -2: public.x.to_bytes(32, "big"), -3: public.y.to_bytes(32, "big")}


def run_program(name, *arguments, data=b""):
    done = subprocess.run([name, *arguments], input=data, capture_output=True)
    return done.stdout, done.stderr, done.returncode


if __name__ == "__main__":
    result = unittest.main(exit=False).result
    print(f"{result.testsRun} tests", file=sys.stderr)
    sys.exit(not result.wasSuccessful())
