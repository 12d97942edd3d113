"""scripts/shown.py PROGRAM [SEED PAIRS]: what PROGRAM, a cose-show, hides without --secrets.

- Not too little: two inputs that differ in secrets of keys alone, of the same lengths, are shown alike, byte by byte. The keys are random,
  anywhere in items and messages, in many encodings; some inputs are cut off. With --secrets they are shown otherwise.
- Not too much: of random signatures, which are no keys, all but one in a hundred are shown.
A row of after-ci.sh runs it with a fixed seed."""
import random
import subprocess
import sys

# of each type of keys (RFC 9053, section 7; RFC 8230; AKP) a public label, and the labels of secrets
TYPES = {4: (None, [-1]), 1: (-2, [-4]), 2: (-2, [-4]), 3: (-1, [-3, -4, -5, -6, -7, -8, -10, -11, -12]), 7: (-1, [-2])}
OPTIONS = [[], ["--full"], ["--json"], ["--covered"], ["--covered", "--full", "--strict"], ["--json", "--covered", "--strict"]]


def head(major, number, width=0):
    """A head, of this many bytes for the number at least."""
    for code, size in ((24, 1), (25, 2), (26, 4), (27, 8)):
        if width < size and number < 24 and code == 24:
            break
        if width <= size and number < 256 ** size:
            return bytes([major << 5 | code]) + number.to_bytes(size, "big")
    return bytes([major << 5 | number])


class Maker:
    """Makes keys, and what is around them. All is drawn from one generator, but for the secrets, which come from another."""

    def __init__(self, seed, side):
        self.r, self.s = random.Random(seed), random.Random(f"{seed} {side}")
        self.wild = self.r.choice([0, 0, .1, .4, 1])

    def secret(self):
        kind = self.r.randrange(8)
        if kind == 6:
            return "".join(self.s.choice("ABCDEFGHJKLMNPQRSTUVWXYZ23456789") for _ in range(24))
        return self.s.randbytes(32) if kind < 6 else [self.s.randbytes(32), 1]

    def key(self):
        r, kty = self.r, self.r.choice([4, 4, 4, 1, 2, 2, 3, 7])
        public, labels = TYPES[kty]
        entries = [(1, kty)]
        entries += [(2, r.randbytes(r.choice([1, 4, 8])))] * (r.random() < .5)
        entries += [(3, r.choice([5, -7, -8, 4]))] * (r.random() < .4)
        entries += [(4, [10, 9])] * (r.random() < .3)
        if public:
            entries.append((public, bytes(r.randrange(128) for _ in range(32))))
        entries += [(label, self.secret()) for label in r.sample(labels, r.randrange(1, len(labels) + 1))]
        if r.random() < .15:
            entries.append((r.choice([-70000, -20, 77, 6]), self.secret()))
        if r.random() < .1:
            entries.append((r.choice(["k", "d", "secret"]), self.secret()))
        if r.random() < .5:
            r.shuffle(entries)
        return dict(entries)

    def message(self, item):
        """A message that the item is in, somewhere."""
        r, held = self.r, self.bytes_of(item)
        protected, unprotected, payload = self.bytes_of({1: r.choice([5, -7, 4, 1])}), {}, b"p"
        last, recipient = r.randbytes(8), [b"", {}, None]
        kind, tag = r.randrange(8), r.choice([16, 17, 18, 96, 97, 98])
        if kind == 0:
            unprotected = {r.choice([99, -1, 13, 14, 15]): item}
        elif kind == 1:
            protected = self.bytes_of({1: 5, r.choice([99, -1, 14]): item})
        elif kind == 2:
            payload = item
        elif kind == 3 and isinstance(item, dict):
            unprotected = item
        elif kind == 4 and isinstance(item, dict):
            protected = held
        elif kind == 5:
            last = held
        elif kind == 6 and tag in (96, 97):
            recipient = [b"", item if isinstance(item, dict) else {}, held]
        else:
            payload = held
        rest = {16: [], 17: [last], 18: [last], 96: [[recipient]], 97: [last, [recipient]], 98: [[[protected, unprotected, last]]]}
        return (tag, [protected, unprotected, payload] + rest[tag])

    def around(self, item):
        """An item that this one is in."""
        r = self.r
        kind = r.randrange(11)
        if kind == 0:
            return [1, item, "x"]
        if kind == 1:
            return {1: "iss", 8: item, 4: 5}
        if kind == 2:
            return {8: {1: item}}
        if kind == 3:
            return (r.choice([24, 61, 55799, 101, 1000]), item)
        if kind == 4:
            return self.bytes_of(item)
        if kind == 5:
            return (r.choice([24, 24, 2]), self.bytes_of(item))
        if kind == 6:
            return self.bytes_of("a") + self.bytes_of(item) + r.choice([b"", b"\7", b"\x61\xff"])
        if kind == 7:
            return {"key": item, -1: 3}
        if kind == 8:
            return [item] * r.choice([1, 2])
        if kind == 9:
            return {r.choice([0, 2, 33, -1, -257]): item}
        return self.message(item)

    def head(self, major, number):
        return head(major, number, self.r.choice([1, 2, 4, 8]) if self.r.random() < self.wild else 0)

    def string(self, major, data):
        if self.r.random() >= self.wild / 2:
            return self.head(major, len(data)) + data
        size = self.r.choice([1, 3, 7, 20, 100])
        pieces = [data[at:at + size] for at in range(0, len(data), size)]
        return bytes([major << 5 | 31]) + b"".join(self.head(major, len(piece)) + piece for piece in pieces) + b"\xff"

    def integer(self, number):
        major, number = (0, number) if number >= 0 else (1, -1 - number)
        if self.r.random() < self.wild / 5:
            return bytes([0xc2 + major]) + self.string(2, number.to_bytes(self.r.choice([4, 8, 16]), "big"))
        return self.head(major, number)

    def several(self, major, count, items):
        if self.r.random() < self.wild:
            return bytes([major << 5 | 31]) + items + b"\xff"
        return self.head(major, count) + items

    def bytes_of(self, item):
        """An encoding of the item."""
        if item is None:
            return b"\xf6"
        if isinstance(item, int):
            return self.integer(item)
        if isinstance(item, bytes):
            return self.string(2, item)
        if isinstance(item, str):
            return self.string(3, item.encode())
        if isinstance(item, list):
            return self.several(4, len(item), b"".join(map(self.bytes_of, item)))
        if isinstance(item, dict):
            return self.several(5, len(item), b"".join(self.bytes_of(label) + self.bytes_of(value) for label, value in item.items()))
        tag, content = item
        return self.head(6, tag) + self.bytes_of(content)

    def input(self):
        r = self.r
        item = self.key() if r.random() < .7 else [self.key() for _ in range(r.randrange(1, 4))]
        for _ in range(r.choice([0, 0, 1, 1, 2, 2, 3, 4, 6])):
            item = self.around(item)
        data = self.bytes_of(item)
        return data[:r.randrange(len(data) + 1)] if r.random() < .3 else data


def run(program, options, data):
    done = subprocess.run([program, *options], input=data, capture_output=True, timeout=60)
    return done.returncode, done.stdout, done.stderr


def same(program, seed, pairs):
    """How many pairs are shown otherwise, and how many are with --secrets."""
    bad = seen = 0
    for number in range(pairs):
        a, b = (Maker(f"{seed} {number}", side).input() for side in "ab")
        options = OPTIONS[number % len(OPTIONS)]
        if len(a) != len(b):
            sys.exit(f"shown.py: pair {number}: {len(a)} and {len(b)} bytes")
        if run(program, options, a) != run(program, options, b):
            bad += 1
            print(f"shown.py: shown otherwise ({' '.join(options)}):\n  {a.hex()}\n  {b.hex()}")
        if number % 8 == 0:
            seen += run(program, ["--secrets"], a) != run(program, ["--secrets"], b)
    return bad, seen


def hidden(program, seed, size, count):
    """Of how many random signatures of so many bytes nothing is shown."""
    r = random.Random(seed)
    data = b"".join(b"\xd2\x84\x43\xa1\x01\x26\xa0\x41p" + head(2, size) + r.randbytes(size) for _ in range(count))
    shown = run(program, ["--full"], data)[1]
    if shown.count(b"signature, ") != count:
        sys.exit("shown.py: signatures are missing")
    return shown.count(b"signature, %d bytes, not shown" % size)


def main(program, seed="1", pairs="400"):
    bad, seen = same(program, seed, int(pairs))
    few = [(size, count, hidden(program, seed, size, count)) for size, count in ((32, 2000), (64, 2000), (256, 1000), (2420, 200))]
    bad += sum(left * 100 > count for _, count, left in few)
    print(f"{pairs} pairs; seen with --secrets: {seen}; signatures not shown: "
          + ", ".join(f"{left} of {count} of {size} bytes" for size, count, left in few))
    sys.exit(1 if bad or not seen else 0)


main(*sys.argv[1:])
