"""service-load.py SECONDS SENDERS RATE: the service of docs/SCALE.md under so many messages a second in all; cose-gate is in PATH. Each connection is a run,
whose output goes to one consumer on a connection of its own. Of 20 senders one stalls inside messages, one dies there, one sends junk, and all come again.
Each minute it says what came, of which each has to be whole and none of a good sender missing. Needs systemd-socket-activate and netcat-openbsd."""

import asyncio
import collections
import glob
import hmac
import os
import random
import subprocess
import sys
import tempfile

sys.path.insert(0, HERE := os.path.dirname(os.path.abspath(__file__)) + "/../tools")
from cose_cbor import Reader, Refused, Tag, decode, encode

SECONDS, SENDERS, RATE = map(int, sys.argv[1:])
FOLDER, KEYS, SECRET, PROTECTED = tempfile.mkdtemp(), HERE + "/../examples/keys.cbor", bytes(range(32)), encode({1: 5})
COUNTS, NEXT, HABITS = collections.Counter(), collections.Counter(), ["stalls", "dies", "sends junk"] + [""] * 17


async def consume(reader, _):
    held = b""
    while data := await reader.read(1 << 16):
        items = Reader(held + data)
        try:
            while held := items.data[items.at:]:
                items.skip()
                sender, number, _ = decode(decode(held[:len(held) - len(items.data) + items.at]).value[2])
                COUNTS["came of others" if HABITS[sender % 20] else "came of the good"] += 1
                COUNTS["missing of the good"] += not HABITS[sender % 20] and number != NEXT[sender]
                NEXT[sender] = number + 1
        except Refused:
            pass
    COUNTS["torn"] += len(held) > 0


async def send(sender):
    begin, habit, writer = asyncio.get_running_loop().time() + random.random() * 3, HABITS[sender % 20], None
    for number in range(SECONDS * RATE // SENDERS):
        await asyncio.sleep(max(0, begin + number * SENDERS / RATE - asyncio.get_running_loop().time()))
        if writer is None or writer.is_closing():
            writer, COUNTS["connections"] = (await asyncio.open_unix_connection(FOLDER + "/gate"))[1], COUNTS["connections"] + 1
        payload = encode([sender, number, bytes(60)])
        tag = hmac.digest(SECRET, encode(["MAC0", PROTECTED, b"", payload]), "sha256")
        data, does = encode(Tag(17, [PROTECTED, {4: b"01"}, payload, tag])), number % 25 == 24 and habit
        COUNTS["sent by others" if habit else "sent by the good"] += 1
        try:
            writer.write(random.randbytes(99) if does == "sends junk" else data[:40] if does else data)
            await writer.drain()
            if does == "dies":
                writer.transport.abort()
            await asyncio.sleep(3 * (does == "stalls"))
            writer.write(data[40:] if does == "stalls" else b"")
        except OSError:
            writer = None
    writer.close()


async def watch(activate):
    while await asyncio.sleep(60, True):
        listed = subprocess.run(["ps", "-C", "cose-gate", "--no-headers", "-o", "sid,rss,pid"], capture_output=True, text=True).stdout.splitlines()
        runs = [(int(rss), len(glob.glob(f"/proc/{pid}/fd/*"))) for sid, rss, pid in map(str.split, listed) if int(sid) == activate.pid]
        print(len(runs), "runs,", *map(sum, zip(*runs)), "KiB and descriptors, at most", max(runs, default=(0,))[0], "KiB in one;", dict(COUNTS), flush=True)


async def main():
    await asyncio.start_unix_server(consume, FOLDER + "/consumer", backlog=SENDERS)
    run = f"cose-gate --quiet {KEYS} 2>> {FOLDER}/lines | exec nc -N -U {FOLDER}/consumer"
    words = ["systemd-socket-activate", "--accept", "--inetd", "-E", "PATH", "-l", FOLDER + "/gate", "sh", "-c", run]
    activate = subprocess.Popen(words, start_new_session=True, stderr=subprocess.DEVNULL)
    watcher = await asyncio.sleep(2, asyncio.create_task(watch(activate)))
    await asyncio.gather(*map(send, range(SENDERS)))
    await asyncio.sleep(10, watcher)
    os.killpg(activate.pid, 15)
    print(dict(COUNTS), os.popen(f"cut -d ' ' -f 1 {FOLDER}/lines | sort | uniq -c").read())


asyncio.run(main())
