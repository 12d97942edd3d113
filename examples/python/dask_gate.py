#!/usr/bin/python3
"""usage: dask_gate.py [--scheduler ADDRESS | --workers N] [--size SIZE] KEYS AADHEX INPUT PASSED LINES

Gates a CBOR sequence in pieces on the workers of a Dask cluster, and joins what they give to what one run gives: PASSED gets the messages that
pass, LINES the lines of the gate. It wants Debian's python3-distributed. `cose-show --cut` cuts INPUT between items, into pieces of at least
SIZE bytes (4,000,000); two for each worker are on their way at a time. Without --scheduler it starts N workers here (2).

COSE_GATE and COSE_SHOW name the programs, by default cose-gate and cose-show; COSE_GATE is at that path on each worker. The status is the
gate's, or 6 if INPUT can't be cut, a piece gave no result, or a file can't be read or written. Standard error says how many pieces are done.
docs/SCALE.md tells more."""

import argparse
import collections
import os
import re
import subprocess
import sys
import tempfile
import time
import warnings

try:
    from distributed import Client, LocalCluster
except ImportError:     # Python's own status 1 would mean that items were refused
    print("dask_gate.py: Debian's python3-distributed isn't there", file=sys.stderr)
    sys.exit(6)

# A piece goes by the scheduler, which gives it to another worker if one is lost.
warnings.filterwarnings("ignore", "Large object")


def gate(program, keys, aad, piece):
    """On a worker: the gate's status, output and lines for a piece. KEYS is kept in memory."""
    import os
    import subprocess
    fd = os.memfd_create("keys")
    try:
        os.write(fd, keys)
        ran = subprocess.run([program, f"/proc/self/fd/{fd}", aad], input=piece, capture_output=True, pass_fds=[fd])
    finally:
        os.close(fd)
    lines = ran.stderr.decode()
    last = lines.rpartition("\n")[0].rpartition("\n")[2]
    if ran.returncode not in (2, 3, 4) and not (ran.returncode in (0, 1) and last.startswith("passed ")):
        raise RuntimeError(f"{program} gave no result: status {ran.returncode}, {lines[-200:]}")
    return ran.returncode, ran.stdout, lines


class Joined:
    """What the pieces so far gave: the files, the gate's status, and how many items, bytes and messages."""

    def __init__(self, passed, lines):
        self.passed, self.lines = passed, lines
        self.status = self.items = self.bytes = self.good = self.refused = 0

    def add(self, length, status, passed, lines):
        """Adds a piece. The numbers of its items and its offsets are moved up by those of the pieces before it."""
        self.passed.write(passed)
        items = 0
        for line in lines.splitlines():
            if line.startswith("item "):
                _, number, _, at, rest = line.split(" ", 4)
                line = f"item {int(number) + self.items} at {int(at[:-1]) + self.bytes}: {rest}"
                items += 1
            elif fault := re.fullmatch(r"stopped: decode: Syntax\((\d+)\)", line):
                line = f"stopped: decode: Syntax({int(fault[1]) + self.bytes})"
            elif last := re.fullmatch(r"passed (\d+), refused (\d+)", line):
                self.good += int(last[1])
                self.refused += int(last[2])
                continue
            self.lines.write(line + "\n")
        self.items += items
        self.bytes += length
        self.status = max(self.status, status)

    def end(self):
        if self.status <= 1:
            self.lines.write(f"passed {self.good}, refused {self.refused}\n")
        return self.status


def cut(show, size, folder, path):
    """The names of the pieces. Of a damaged input the last one holds all from the damage on, and the gate stops there."""
    ran = subprocess.run([show, "--cut", str(size), folder, path], stderr=subprocess.PIPE, text=True)
    if ran.returncode != 0 and not ran.stderr.startswith("cose-show: damaged"):
        raise RuntimeError(ran.stderr.rstrip("\n") or f"{show} ended with status {ran.returncode}")
    names = [os.path.join(folder, name) for name in sorted(os.listdir(folder))]
    if not names:       # an empty input is one empty piece
        names = [os.path.join(folder, "000001.cbor")]
        open(names[0], "wb").close()
    return names


def read(path):
    with open(path, "rb") as file:
        return file.read()


def run(client, options, pieces):
    """Has all pieces gated, up to the first in which the gate stops."""
    program = os.environ.get("COSE_GATE", "cose-gate")
    keys = read(options.keys)
    window = 2 * max(1, len(client.scheduler_info()["workers"]))
    begun, done, told = time.monotonic(), 0, 0
    left, running = collections.deque(pieces), collections.deque()
    with open(options.passed, "wb") as passed, open(options.lines, "w") as lines:
        joined = Joined(passed, lines)
        while (left or running) and joined.status <= 1:
            while left and len(running) < window:
                piece = read(left.popleft())
                running.append((len(piece), client.submit(gate, program, keys, options.aad, piece, pure=False)))
            length, future = running.popleft()
            joined.add(length, *future.result())
            done += 1
            if done == len(pieces) or time.monotonic() - told >= 1:
                told = time.monotonic()
                print(f"dask_gate.py: {done} of {len(pieces)} pieces, {told - begun:.1f} s", file=sys.stderr)
        client.cancel([future for _, future in running])
        return joined.end()


def main():
    parser = argparse.ArgumentParser(usage=__doc__.split("\n")[0].removeprefix("usage: "), description=__doc__.split("\n\n", 1)[1],
                                     formatter_class=argparse.RawDescriptionHelpFormatter)
    place = parser.add_mutually_exclusive_group()
    place.add_argument("--scheduler")
    place.add_argument("--workers", type=int, default=2)
    parser.add_argument("--size", type=int, default=4_000_000)
    for word in ("keys", "aad", "input", "passed", "lines"):
        parser.add_argument(word)
    options = parser.parse_args()
    with tempfile.TemporaryDirectory() as folder:
        pieces = cut(os.environ.get("COSE_SHOW", "cose-show"), options.size, os.path.join(folder, "pieces"), options.input)
        if options.scheduler:
            with Client(options.scheduler) as client:
                return run(client, options, pieces)
        with LocalCluster(n_workers=options.workers, threads_per_worker=1, dashboard_address=None) as cluster, Client(cluster) as client:
            return run(client, options, pieces)


if __name__ == "__main__":
    try:
        status = main()
    except Exception as error:      # never Python's own status 1, which means that items were refused
        print(f"dask_gate.py: {error}", file=sys.stderr)
        status = 6
    sys.exit(status)
