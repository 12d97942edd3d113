#!/usr/bin/env python3
"""instructions.py: what no contract says of time, in instructions, which valgrind counts, of the programs that `rt ci` left in out/:

- a small message, by the first key of one and of 1,000, takes no more than BOUND: the hash of a key is begun once, not for each message;
- a wrong tag takes the same to the instruction, whichever of its bytes is wrong, with and without --verbose: nobody who counts or times
  learns how much of a tag is right;
- with four times as many parts of a kind (labels, signers, claims, items, keys ..) a run takes at most GROWTH times as much: 4.8 is n log n
  from 1,000 on, and a square is 16.

Status 1 if one of these fails. Without valgrind it says that it is left out, and looks at nothing. CRATES is another folder of crates with
such out/."""
import hashlib
import os
import re
import shutil
import subprocess
import sys
import tempfile
from concurrent.futures import ThreadPoolExecutor

BOUND = 14_500
GROWTH = 5.5
FEW, MANY = 1_000, 4_000

here = os.path.dirname(os.path.dirname(os.path.realpath(__file__)))
crates = os.environ.get("CRATES", os.path.join(here, "crates"))
sys.path.insert(0, os.path.join(here, "scripts"))
from importlib import import_module

messages = import_module("worst-messages")
head, string, message = messages.head, messages.string, messages.message


def text(content):
    return head(3, len(content)) + content


def array(parts):
    return head(4, len(parts)) + b"".join(parts)


def mapped(entries):
    return head(5, len(entries)) + b"".join(key + value for key, value in entries)


def program(name, ending=""):
    crate = {"gate": "cose_gate_cli", "ask": "cose_ask_cli", "pass": "cose_pass_cli", "show": "cose_show", "sift": "cose_sift"}[name]
    return os.path.join(crates, crate, "out", crate + ending)


folder = tempfile.mkdtemp()
made = 0


def file(content):
    global made
    made += 1
    name = os.path.join(folder, str(made))
    with open(name, "wb") as it:
        it.write(content)
    return name


def count(command, content):
    """How many instructions a run takes, from its first to its last."""
    words = ["valgrind", "--tool=cachegrind", "--cache-sim=no", f"--cachegrind-out-file={os.devnull}", f"--log-file={folder}/%p.log", *command]
    run = subprocess.Popen(words, stdin=open(file(content), "rb"), stdout=subprocess.DEVNULL, stderr=subprocess.DEVNULL, env={"PATH": os.environ["PATH"]})
    if run.wait() not in (0, 1):
        raise SystemExit(f"instructions.py: status {run.returncode}: {' '.join(command)}")
    with open(f"{folder}/{run.pid}.log") as log:
        return int(re.search(r"I +refs: +([\d,]+)", log.read()).group(1).replace(",", ""))


def key(id):
    return mapped([(b"\x01", b"\x04"), (b"\x02", string(id)), (b"\x20", string(messages.SECRET))])


def keys(number):
    """A key set of so many keys, the first of which is that of the example."""
    return array([key(b"01")] + [key(b"other %06d" % at) for at in range(1, number)])


PAYLOAD, TAG = string(b"hi"), string(bytes(32))
ES256_KEY = mapped([(b"\x01", b"\x02"), (b"\x02", string(b"01")), (b"\x20", b"\x01"), (b"\x21", string(b"x")), (b"\x22", string(b"y"))])


def mac0(unprotected=b"\xa0", protected=b"\x40", payload=PAYLOAD):
    return message(17, protected, unprotected, [payload, TAG])


def sized(number):
    """Of each kind the command and its input, with so many parts of it."""
    gate = [program("gate"), os.path.join(here, "examples", "keys.cbor")]
    ask, show = [program("ask")], [program("show")]
    numbers = [head(0, 100 + at) for at in range(number)]
    names = [text(b"%06d" % (at * 7919 % number)) for at in range(number)]
    part = b"\x83\x40\xa0\x40"
    inputs = {
        "integer labels": mac0(mapped([(it, b"\x00") for it in numbers])),
        "text labels": mac0(mapped([(it, b"\x00") for it in names])),
        "entries of a map in a map": mac0(mapped([(b"\x18\x63", mapped([(it, b"\x00") for it in names]))])),
        "critical labels": mac0(protected=string(mapped([(b"\x02", array(names))]))),
        "counter signatures": mac0(mapped([(b"\x07", array([part] * number))])),
        "items of an array": mac0(mapped([(b"\x18\x63", array([b"\x00"] * number))])),
        "chunks of a string": mac0(payload=b"\x5f" + b"\x41\x00" * number + b"\xff"),
        "bytes of a payload": mac0(payload=string(bytes(64 * number))),
        "messages": mac0() * number,
    }
    parts = {
        "signers": message(98, b"\x40", b"\xa0", [PAYLOAD, array([part] * number)]),
        "recipients": message(97, b"\x40", b"\xa0", [PAYLOAD, TAG, array([part] * number)]),
    }
    found = {("cose-gate", name): (gate, it) for name, it in inputs.items()}
    found.update({("cose-ask", name): (ask, it) for name, it in parts.items()})
    found.update({("cose-show", name): (show, it) for name, it in {**inputs, **parts}.items()})
    found.update({("cose-sift", name): ([program("sift")], it) for name, it in {**inputs, **parts}.items()})
    found["cose-sift", "open arrays inside one another"] = ([program("sift")], b"\x9f" * number + b"\xff" * number)
    found["cose-sift", "tags"] = ([program("sift"), "--untag"], b"\xd8\x3d" * number + mac0())
    found["cose-gate", "keys"] = ([program("gate"), file(keys(number))], mac0())
    records = subprocess.run([program("ask")], input=mac0() * number, stdout=subprocess.PIPE, stderr=subprocess.DEVNULL).stdout
    found["cose-pass", "messages"] = ([program("pass"), file(records)], mac0() * number)
    signed = array([string(b"\xa1\x01\x26"), mapped([(b"\x04", string(b"01"))]), string(b"signed")])
    allowed = message(98, b"\x40", b"\xa0", [string(bytes(1_000)), array([signed] * number)])
    found["cose-ask --keys", "signers"] = ([program("ask"), "--keys", file(array([ES256_KEY]))], allowed)
    found["cose-ask --keys", "keys"] = ([program("ask"), "--keys", file(array([ES256_KEY] * number))], mac0())
    token = mac0(mapped([(b"\x04", string(b"01"))]), string(b"\xa1\x01\x05"), string(mapped([(it, b"\x00") for it in names])))
    found["cose-ask --cwt", "claims"] = ([program("ask"), "--keys", file(keys(1)), "--cwt", "--at", "0"], token)
    digests = b"".join(hashlib.sha256(b"%d" % at).digest() for at in range(number))
    found["cose-pass --digests", "digests"] = ([program("pass"), "--digests", file(digests)], mac0() * number)
    return found


def main():
    if not shutil.which("valgrind"):
        print("instructions.py: no valgrind, so it is left out")
        return 0
    bad = []
    with open(os.path.join(here, "examples", "one.cbor"), "rb") as it:
        one = it.read()
    few, many = sized(FEW), sized(MANY)
    with ThreadPoolExecutor(os.cpu_count()) as runs:
        growth = {it: (runs.submit(count, *few[it]), runs.submit(count, *many[it])) for it in few}
        small = {}
        for number in (1, 1_000):
            command = [program("gate"), file(keys(number)), "01"]
            small[number] = (runs.submit(count, command, one * 100), runs.submit(count, command, one * 300))
        told = {}
        for ending in ("", ".by-rattle"):
            for options in ([], ["--verbose"]):
                for at in (-32, -17, -1):
                    wrong = bytearray(one)
                    wrong[at] ^= 1
                    command = [program("gate", ending), *options, os.path.join(here, "examples", "keys.cbor"), "01"]
                    told.setdefault((ending, *options), []).append(runs.submit(count, command, bytes(wrong) * 20))
        for number, (low, high) in small.items():
            each = (high.result() - low.result()) // 200
            print(f"a small message by {number} keys: {each}")
            if each > BOUND:
                bad.append(f"a small message by {number} keys takes {each} instructions, at most {BOUND}")
        for name, each in told.items():
            each = [it.result() for it in each]
            if len(set(each)) != 1:
                bad.append(f"cose-gate {name}: wrong tags take {each}, by the place of the wrong byte")
        for name, (low, high) in growth.items():
            times = high.result() / low.result()
            print(f"{' of '.join(reversed(name))}: {low.result()} to {high.result()}, {times:.2f}")
            if times > GROWTH:
                bad.append(f"{' of '.join(reversed(name))}: {times:.2f} times, at most {GROWTH}")
    for it in bad:
        print(f"instructions.py: {it}", file=sys.stderr)
    print(f"{2 * len(few) + 4 + 12} runs")
    return 1 if bad else 0


if __name__ == "__main__":
    try:
        sys.exit(main())
    finally:
        shutil.rmtree(folder, ignore_errors=True)
