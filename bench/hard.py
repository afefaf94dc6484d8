#!/usr/bin/env python3
"""Writes a hard board to standard output: 16 inputs, about 500 lines, 32 outputs, 255 faults, most of them hard to see.

A random card by a seed, so that it can be made again: `python3 bench/hard.py [SEED] > hard.board`.
Gates read lines of everywhere before them, so that most faults are masked on the way to an output.
"""
import random
import sys

INPUTS, LINES, OUTPUTS, FAULTS = 16, 500, 32, 255


def field(n):
    return bytes([n % 256, n // 256])


def record(mark, byte1, *fields):
    body = bytes([mark, byte1]) + b"".join(field(f) for f in fields)
    return body + bytes(16 - len(body))


def main():
    rng = random.Random(int(sys.argv[1]) if len(sys.argv) > 1 else 1)
    out = [record(0x49, 0) for _ in range(INPUTS)]
    for line in range(INPUTS, LINES):
        kind = rng.choice([1, 1, 2, 2, 3, 4, 5, 7])
        pins = 1 if kind == 7 else rng.choice([2, 2, 2, 3])
        out.append(record(0x47, kind, pins, *[rng.randrange(line) for _ in range(pins)]))
    for _ in range(OUTPUTS):
        out.append(record(0x4F, 0, rng.randrange(LINES - 100, LINES)))
    for _ in range(FAULTS):
        out.append(record(0x46, rng.randrange(2), rng.randrange(LINES)))
    sys.stdout.buffer.write(b"".join(out))


main()
