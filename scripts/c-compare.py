"""c-compare.py compare TOP LIBRARY PROGRAM: the library's answers against those of the program, byte for byte, over the rows `run` of
conformance_gate, and over 1,000 mutated sequences; the length of buffer that each needs; and that with all questions accepted all that the judge lets
through passes, and with those that the rules allow no more. Status 1 if one differs. c-compare.py write TOP FOLDER: writes the 1,000 mutated sequences into files of the folder."""

import random
import re
import subprocess
import sys
import tempfile

what, top, *rest = sys.argv[1:]
sys.path.insert(0, f"{top}/examples/python")
from cose_gate import Gate, GateError, LimitsError, NoRoomError, StoppedError, items_of, questions_of  # noqa: E402

random.seed(39)
seeds = [open(f"{top}/examples/{name}.cbor", "rb").read() for name in ("mixed", "one", "cut")]
keys = open(f"{top}/examples/keys.cbor", "rb").read()


def mutated(data):
    data = bytearray(data)
    for _ in range(random.randint(1, 4)):
        place = random.randrange(len(data))
        match random.randrange(4):
            case 0:
                data[place] = random.randrange(256)
            case 1:
                data[place] ^= 1 << random.randrange(8)
            case 2:
                del data[place : place + random.randint(1, 8)]
            case 3:
                other = random.choice(seeds)
                start = random.randrange(len(other))
                data[place:place] = other[start : start + random.randint(1, 60)]
        if not data:
            break
    return bytes(data)


if what == "write":
    for number in range(1000):
        with open(f"{rest[0]}/{number:04}", "wb") as file:
            file.write(mutated(random.choice(seeds)))
    sys.exit()

library, program = rest
gate = Gate(library)


def by_library(keys, aad, input):
    """Status, output and lines; and NO_ROOM exactly if the buffer is shorter than the output."""
    try:
        checked = gate.check(keys, aad, input)
        answer = (int(checked.some_refused), checked.passed, checked.lines)
    except GateError as fault:
        answer = (fault.status, fault.passed, fault.lines)
    needed = len(answer[1])
    if needed > 0:
        for room in {0, needed - 1}:
            try:
                gate.check(keys, aad, input, room=room)
            except NoRoomError as fault:
                assert fault.needed == needed
            else:
                raise AssertionError("no room was not told")
    try:
        assert gate.check(keys, aad, input, room=needed).passed == answer[1]
    except GateError as fault:
        assert (fault.status, fault.passed) == answer[:2]
    return answer


def by_program(keys, aad, input):
    """Status, output and lines, but those that begin with two blanks: the library doesn't say why KEYS can't be used."""
    with tempfile.NamedTemporaryFile() as file:
        file.write(keys)
        file.flush()
        ran = subprocess.run([program, file.name, aad.hex()], input=input, capture_output=True)
    return (ran.returncode, ran.stdout, re.sub(r"(?m)^  .*\n", "", ran.stderr.decode()))


def compare(keys, aad, input):
    found, wanted = by_library(keys, aad, input), by_program(keys, aad, input)
    if found != wanted:
        print(f"differs: keys {keys.hex()} aad {aad.hex()} input {input.hex()}\n{found}\n{wanted}", file=sys.stderr)
        sys.exit(1)
    return found[0]


def answer_of(call, *inputs):
    """What passes, also before the place where the run stops."""
    try:
        return call(*inputs).passed
    except StoppedError as fault:
        return fault.passed


def asks(aad, input):
    """With all questions accepted what passes is more than the judge by HMAC lets through, and with none it is nothing."""
    try:
        questions = gate.ask(aad, input)
    except StoppedError as fault:
        questions = list(questions_of(fault.passed))
    passed = answer_of(gate.pass_accepted, questions[::-1], aad, input)
    assert len(passed) >= len(answer_of(gate.check, keys, aad, input))
    assert all(question.kind in (17, 18, 97, 98) and question.covered for question in questions)
    assert answer_of(gate.pass_accepted, [], aad, input) == b""
    try:
        items = gate.ask_ruled(keys, aad, input)
    except StoppedError as fault:
        items = list(items_of(fault.passed))
    digests = [one.digest for item in items for one in item.signatures]
    ruled = answer_of(gate.pass_digests, digests, aad, input)
    assert (ruled == b"") == (digests == []) and len(ruled) <= len(passed)


def of_hex(word):
    return b"" if word == "-" else bytes.fromhex(word)


def rows():
    """The rows of one key set, external data in hex, and an input, with the answers that are due."""
    for line in open(f"{top}/crates/conformance_gate/stdin"):
        words = line.split()
        if not line.startswith("run ") or "none" in words[1:2]:
            continue
        try:
            yield of_hex(words[1]), b"" if words[2] in ("none", "-") else bytes.fromhex(words[2]), of_hex(words[3])
        except ValueError:
            continue  # AADHEX that is no hex never reaches the library


count = 0
for row in rows():
    compare(*row)
    count += 1
print(f"c-compare.py: {count} rows of conformance_gate: the same")


statuses = {}
for number in range(1000):
    used = mutated(keys) if number % 10 == 0 else keys
    aad, input = random.choice([b"\x01", b"\x01", b""]), mutated(random.choice(seeds))
    status = compare(used, aad, input)
    asks(aad, input)
    statuses[status] = statuses.get(status, 0) + 1
print(f"c-compare.py: 1,000 mutated sequences: the same; how many of each status: {dict(sorted(statuses.items()))}")

for nesting, layers in ((1, 16), (4097, 16), (256, 0), (256, 65)):
    try:
        gate.check(keys, b"\x01", seeds[0], nesting=nesting, layers=layers)
    except LimitsError as fault:
        assert fault.passed == b""
    else:
        sys.exit("limits out of range were taken")
strict = gate.check(keys, b"\x01", seeds[0], strict=True)
print(f"c-compare.py: limits out of range are told; strict: {strict.lines.splitlines()[-1]}")
