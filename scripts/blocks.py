#!/usr/bin/env python3
"""blocks.py [--digests] < BLOCKS: of the blocks of cose-ask --keys, a line for each, and one for each question with its covered bytes in hex; or with
--digests the digests of all questions, as if each signature were good. The rows of after-ci.sh compare by it."""
import sys


def take(text):
    """A piece after its length, and the rest."""
    size = 8 + int.from_bytes(text[:8], "little")
    return text[8:size], text[size:]


def numbers(text):
    return [int.from_bytes(text[at : at + 8], "little") for at in range(0, len(text), 8)]


def questions(base, rest):
    while rest:
        question, rest = take(rest)
        kind, algorithm = numbers(question[:16])
        places, question = take(question[16:])
        front, behind = numbers(question[:16])
        own, question = take(question[16:])
        signature, digest = take(question)
        yield kind, algorithm - (algorithm >> 63 << 64), numbers(places), base[:front] + own + base[behind:], signature, digest


rest = sys.stdin.buffer.read()
while rest:
    block, rest = take(rest)
    number, offset, end, asked = numbers(block[:32])
    verdict, block = take(block[32:])
    why, block = take(block)
    base, block = take(block)
    if "--digests" in sys.argv:
        for question in questions(base, block):
            sys.stdout.buffer.write(question[5])
        continue
    print(f"item {number} at {offset} to {end}: {verdict.decode()}, asked {asked}" + (f": {why.decode()}" if why else ""))
    for kind, algorithm, places, covered, signature, digest in questions(base, block):
        print(f"  {kind} {algorithm} {places} {covered.hex()} {signature.hex()} {digest.hex()}")
