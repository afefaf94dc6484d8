"""Writes the example board files beside this script, and says what must be printed for each. It simulates the
cards in its own way, by whole truth tables, and neither runs nor reads the program that it is held against."""

import itertools
import pathlib
import sys

HERE = pathlib.Path(__file__).resolve().parent

AND, OR, NAND, NOR, XOR, XNOR, NOT, BUF = range(1, 9)

# What a gate makes of the bits on its pins.
MAKES = {
    AND: lambda bits: all(bits),
    OR: lambda bits: any(bits),
    NAND: lambda bits: not all(bits),
    NOR: lambda bits: not any(bits),
    XOR: lambda bits: sum(bits) % 2 == 1,
    XNOR: lambda bits: sum(bits) % 2 == 0,
    NOT: lambda bits: not bits[0],
    BUF: lambda bits: bits[0],
}


class Board:
    """A card: how many inputs, the gates as (kind, pins), the lines of the outputs, the faults as (line, value)."""

    def __init__(self, inputs, gates=(), outputs=(), faults=()):
        self.inputs = inputs
        self.gates = list(gates)
        self.outputs = list(outputs)
        self.faults = list(faults)

    def file(self):
        """The board file: 16 bytes to a record, fields of two bytes with the low byte first."""
        records = [b"I"] * self.inputs
        for kind, pins in self.gates:
            fields = [len(pins)] + list(pins)
            records.append(b"G" + bytes([kind]) + b"".join(f.to_bytes(2, "little") for f in fields))
        for line in self.outputs:
            records.append(b"O\0" + line.to_bytes(2, "little"))
        for line, value in self.faults:
            records.append(b"F" + bytes([value]) + line.to_bytes(2, "little"))
        return b"".join(r.ljust(16, b"\0") for r in records)

    def shows(self, vector, fault):
        """The bits at the outputs of the card with this fault (or None), where input i has bit i of the vector."""
        lines = []
        for number in range(self.inputs + len(self.gates)):
            if number < self.inputs:
                bit = vector >> number & 1
            else:
                kind, pins = self.gates[number - self.inputs]
                bit = int(MAKES[kind]([lines[p] for p in pins]))
            if fault is not None and fault[0] == number:
                bit = fault[1]
            lines.append(bit)
        return tuple(lines[o] for o in self.outputs)

    def tables(self):
        """For each machine what it shows at every vector; machine 0 has no fault."""
        return [[self.shows(v, f) for v in range(1 << self.inputs)] for f in [None] + self.faults]

    def report(self):
        """Machine, label, and the letters of the smallest vector that tells it from machine 0, line by line."""
        tables = self.tables()
        text = ""
        for machine, table in enumerate(tables):
            label = tables.index(table)
            differing = [v for v, (a, b) in enumerate(zip(tables[0], table)) if a != b]
            letters = "".join(str(differing[0] >> i & 1) for i in range(self.inputs)) if differing else "-"
            text += f"{machine} {label} {letters}\n"
        return text


BOARDS = {
    "empty": Board(0),
    "and": Board(2, [(AND, [0, 1])], [2], [(0, 0), (1, 0), (2, 0), (2, 1), (0, 1), (1, 1)]),
    "redundant": Board(2, [(AND, [0, 1]), (OR, [0, 2])], [3], [(2, 0)]),
    # Six NAND gates on five inputs, known as c17, with both faults of each line, stuck at 0 first.
    "c17": Board(
        5,
        [(NAND, [0, 2]), (NAND, [2, 3]), (NAND, [1, 6]), (NAND, [6, 4]), (NAND, [5, 7]), (NAND, [7, 8])],
        [9, 10],
        list(itertools.product(range(11), [0, 1])),
    ),
}

# A file with one input more than a card can have, and the line for it: number 3, one too many, at record 16.
REFUSED = Board(17).file()
REFUSED_LINE = "refused 3 16\n"


def main(words):
    if words == ["write"]:
        for name, board in BOARDS.items():
            (HERE / f"{name}.board").write_bytes(board.file())
        (HERE / "refused.board").write_bytes(REFUSED)
    elif words == ["refused"]:
        sys.stdout.write(REFUSED_LINE)
    elif len(words) == 1 and words[0] in BOARDS:
        sys.stdout.write(BOARDS[words[0]].report())
    else:
        sys.exit("usage: reference.py write | " + " | ".join(BOARDS) + " | refused")


if __name__ == "__main__":
    main(sys.argv[1:])
