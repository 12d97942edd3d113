#!/usr/bin/env python3
"""c-image.py IMAGE QUESTION CHECK LIBRARY: the program of examples/c/image.c over images that it makes: good, with a byte changed, cut at every
place, of other tags and shapes, and with bytes after the message; that of examples/c/question.c, which has to write the record of each
question; and `stream_check` and `stream_ask` of examples/python/cose_gate over LIBRARY, a shared object, which is named without its folder.
Then an image of 64 MiB, under the least limit of data (`ulimit -d`, which the copy doesn't count towards) in which a small image is checked
and asked about; CHECK, the program of examples/c/check.c, which reads its input into memory, has to fail under that. While QUESTION writes
that image, its file is overwritten and shortened: what was asked about has to be what is written. Status 1 if something differs. It needs
python3's standard library alone."""
import array
import hashlib
import hmac
import mmap
import os
import pathlib
import resource
import subprocess
import sys
import tempfile

top = pathlib.Path(__file__).resolve().parent.parent
sys.path += [str(top / "tools"), str(top / "examples/python")]
from cose_cbor import encode, head
from cose_gate import Gate, KeysError, Refused, StoppedError

image, question, check, library = map(os.path.abspath, sys.argv[1:])
os.chdir(os.path.dirname(library))
gate = Gate(os.path.basename(library))
SECRET = bytes(range(32))
PROTECTED = bytes.fromhex("a10105")  # { 1 alg: 5 HMAC 256/256 }
KEYS = encode([{1: 4, -1: SECRET}])  # 1 kty: 4 symmetric, -1 k: the secret
OTHER = encode([{1: 4, -1: bytes(32)}])


def mac0(payload, tag=17, carried=None):
    """A message with its tag; `carried` is what is in the payload's place, if that isn't the payload."""
    mac = hmac.new(SECRET, encode(["MAC0", PROTECTED, b"", payload]), hashlib.sha256).digest()
    return head(6, tag) + head(4, 4) + encode(PROTECTED) + b"\xa0" + (carried or encode(payload)) + encode(mac)


count = 0
folder = tempfile.TemporaryDirectory()
name = f"{folder.name}/image"
keys = f"{folder.name}/keys"


def write(path, content):
    with open(path, "wb") as file:
        file.write(content)


def run(*words, data=None, standard_input=None, binary=False):
    limit = (lambda: resource.setrlimit(resource.RLIMIT_DATA, (data, data))) if data else None
    return subprocess.run(words, stdin=standard_input, capture_output=True, text=not binary, preexec_fn=limit)


def by_python(content, of):
    """What the example in Python says of an image: its payload, or the exception and why."""
    try:
        return gate.stream_check(of, b"", content)
    except (KeysError, Refused, StoppedError) as fault:
        return type(fault), str(fault)


def expect(status, said, content, of=KEYS, payload=None):
    """The program's status, and what it says of an image; and the same of the example in Python."""
    global count
    write(keys, of)
    write(name, content)
    ran = run(image, keys, name)
    if (ran.returncode, ran.stdout) != (status, f"{name}: {said}\n"):
        print(f"c-image.py: status {ran.returncode}, {ran.stdout!r}{ran.stderr!r}, and not {status}, {said!r}: {content[:64].hex()}", file=sys.stderr)
        sys.exit(1)
    told = {
        0: payload,
        1: (Refused, "ExtraneousData" if said.startswith("extraneous") else "Judged"),
        3: (KeysError, KeysError.__doc__),
        4: (StoppedError, said.title().replace(" ", "")),
    }
    found = by_python(content, of)
    if found != told[status]:
        sys.exit(f"c-image.py: cose_gate: {found!r}, and not {told[status]!r}: {content[:64].hex()}")
    count += 1


def framed(piece):
    return len(piece).to_bytes(8, "little") + piece


def record_of(payload, signature, tag=17, protected=PROTECTED):
    """The record of the question about a message with an empty unprotected header."""
    covered = encode([{17: "MAC0", 18: "Signature1"}[tag], protected, b"", payload])
    return framed(tag.to_bytes(8, "little") + b"".join(map(framed, (protected, b"\xa0", b"", b"", b"\x80", covered, signature))))


def expect_question(status, said, content):
    """The status of the program that writes the question about an image, and what it writes; and the same of the example in Python."""
    global count
    write(name, content)
    ran = subprocess.run([question, name], capture_output=True)
    if (ran.returncode, ran.stdout) != (status, said):
        sys.exit(f"c-image.py: a question: status {ran.returncode}, {ran.stdout[:96].hex()}{ran.stderr!r}, not {status}: {content[:64].hex()}")
    try:
        asked, payload = gate.stream_ask(b"", content)
        found, written = 0, asked.record[: len(asked.record) - len(asked.signature) - 8] + payload + asked.record[-len(asked.signature) - 8 :]
    except (Refused, StoppedError) as fault:
        found, written = fault.status, b""
    if (found, written) != (status, said):
        sys.exit(f"c-image.py: stream_ask: {found}, {written[:96].hex()}, not {status}: {content[:64].hex()}")
    count += 1


for size in (0, 1, 23, 24, 4095, 4096, 4097, 60_000):
    payload = bytes(at * 7 % 251 for at in range(size))
    good = mac0(payload)
    length, place = len(good), 7 + len(head(2, size))
    expect(0, f"genuine, payload of {size} at {place}", good, payload=payload)
    expect(1, "no MAC that is good", good, of=OTHER)
    for more in (b"\xff", bytes(5000), good):
        expect(1, f"extraneous data after {length} bytes", good + more)
        expect(1, "no MAC that is good", good + more, of=OTHER)
        expect_question(1, b"", good + more)
    # a byte of the payload, of the tag
    for at in {place + size // 2, length - 1} if size else {length - 1}:
        changed = bytearray(good)
        changed[at] ^= 1
        expect(1, "no MAC that is good", bytes(changed))
    for at in {0, 1, 2, length // 2, length - 1}:
        expect(4, "decode", good[:at])
        expect_question(4, b"", good[:at])
    expect_question(0, record_of(payload, good[-32:]), good)
    expect_question(0, record_of(payload, good[-32:], tag=18), b"\xd2" + good[1:])

small = mac0(b"hello")
# the same with wide heads, and an array that is open
wide = b"\xd8\x11\x9f\x58\x03" + PROTECTED + b"\xb8\x00\x5b" + (5).to_bytes(8, "big") + b"hello" + small[-34:] + b"\xff"
expect(0, "genuine, payload of 5 at 19", wide, payload=b"hello")
expect_question(0, record_of(b"hello", small[-32:]), wide)
# a signature in chunks, one of 4,000 bytes, and a protected header of 300: the first buffer is too short for these
for signature in (b"\x5f\x41\x07\x42\x08\x09\xff", encode(bytes(4000))):
    bare = bytes([7, 8, 9]) if signature[0] == 0x5F else bytes(4000)
    expect_question(0, record_of(b"hello", bare), small[:-34] + signature)
long = encode({1: 5, 4: bytes(300)})
expect_question(0, record_of(b"hello", b"", protected=long), b"\xd1\x84" + encode(long) + b"\xa0\x45hello\x40")
for at in range(len(small)):
    expect(4, "decode", small[:at])
expect(4, "not tagged", small[1:])
expect(4, "other tag", mac0(b"hello", tag=97))
expect(4, "other tag", mac0(b"hello", tag=1))
expect(4, "other tag", b"\xd9\xd9\xf7" + small)
expect(1, "no MAC that is good", mac0(b"hello", tag=18))
expect(4, "shape", b"\xd1\x80")
expect(4, "shape", mac0(b"hello", carried=b"\x18\x2a"))
expect(4, "detached", mac0(b"hello", carried=b"\xf6"))
expect(4, "unsized", mac0(b"hello", carried=b"\x5f\x45hello\xff"))
expect(4, "decode", b"\xd1\x1c")
expect_question(4, b"", mac0(b"hello", tag=97))
expect_question(4, b"", mac0(b"hello", carried=b"\xf6"))
expect_question(4, b"", mac0(b"hello", carried=b"\x5f\x45hello\xff"))
expect(3, "no key set", small, of=b"\xa0")
expect(3, "no key set", small, of=b"")

# what lends its bytes to Python; a mapped file can be closed afterwards
write(name, small)
for lent in (bytearray(small), memoryview(small), memoryview(bytearray(small)), array.array("B", small)):
    if (by_python(lent, KEYS), gate.stream_ask(b"", lent)[1], gate.check(KEYS, b"", lent).passed) != (b"hello", b"hello", small):
        sys.exit(f"c-image.py: cose_gate doesn't take a {type(lent).__name__}")
with open(name, "rb") as file:
    for access in (mmap.ACCESS_READ, mmap.ACCESS_COPY):
        with mmap.mmap(file.fileno(), 0, access=access) as mapped:
            payloads = by_python(mapped, KEYS), gate.stream_ask(b"", mapped)[1]
        if payloads != (b"hello", b"hello"):
            sys.exit("c-image.py: cose_gate doesn't take a mapped file")

large = 64 << 20
write(keys, KEYS)
write(name, small)
least = 1 << 12
while run(image, keys, name, data=least).returncode != 0 or run(question, name, data=least, binary=True).returncode != 0:
    least *= 2
    if least >= large // 8:
        sys.exit("c-image.py: a small image takes megabytes")
write(name, mac0(bytes(1024) * (large >> 10)))
ran = run(image, keys, name, data=least)
if (ran.returncode, ran.stdout) != (0, f"{name}: genuine, payload of {large} at {7 + len(head(2, large))}\n"):
    sys.exit(f"c-image.py: an image of 64 MiB within {least} bytes: status {ran.returncode}, {ran.stdout!r}{ran.stderr!r}")
payload = bytes(1024) * (large >> 10)
ran = run(question, name, data=least, binary=True)
if (ran.returncode, ran.stdout) != (0, record_of(payload, mac0(payload)[-32:])):
    sys.exit(f"c-image.py: the question about an image of 64 MiB within {least} bytes: status {ran.returncode}, {ran.stderr!r}")
with open(name, "rb") as file:
    if run(check, keys, "", data=least, standard_input=file).returncode == 0:
        sys.exit(f"c-image.py: the limit of {least} bytes holds nothing back")
# The pipe holds 64 KiB: the rest of the payload isn't written yet when its first byte is there.
with subprocess.Popen([question, name], stdout=subprocess.PIPE, stderr=subprocess.DEVNULL) as asking:
    first = asking.stdout.read(1)
    with open(name, "r+b") as file:
        file.write(b"\xff" * (large // 2))
        file.truncate(large // 2)
    written = first + asking.stdout.read()
if (asking.returncode, written) != (0, record_of(payload, mac0(payload)[-32:])):
    sys.exit(f"c-image.py: question wrote what others wrote to the file later: status {asking.returncode}, {len(written)} bytes")
print(f"c-image.py: {count} images; one of 64 MiB is checked, and asked about, within {least >> 10} KiB of data, as a small one is")
