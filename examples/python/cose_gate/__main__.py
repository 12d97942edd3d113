"""python3 -m cose_gate LIBRARY KEYS AADHEX [strict] < INPUT > PASSED: what cose-gate does. `bash scripts/c-library.sh python` builds and runs it."""

import sys

from cose_gate import Gate, GateError


def main(words):
    if len(words) not in (4, 5):
        print("usage: python3 -m cose_gate LIBRARY KEYS AADHEX [strict] < INPUT > PASSED", file=sys.stderr)
        return 2
    with open(words[2], "rb") as file:
        keys = file.read()
    input = sys.stdin.buffer.read()
    try:
        checked = Gate(words[1]).check(keys, bytes.fromhex(words[3]), input, strict=len(words) == 5)
    except GateError as fault:
        sys.stdout.buffer.write(fault.passed)
        sys.stderr.write(fault.lines)
        return fault.status
    sys.stdout.buffer.write(checked.passed)
    sys.stderr.write(checked.lines)
    return int(checked.some_refused)


if __name__ == "__main__":
    sys.exit(main(sys.argv))
