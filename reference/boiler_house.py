#!/usr/bin/env python3
"""Writes the drawing and the sheet of the boiler house: loops through delays, timers, reals, five columns, 1,200 rows.

    boiler_house.py FOLDER
"""
import struct
import sys

BINARY, WHOLE, REAL = 1, 2, 3
COLUMNS = [BINARY, BINARY, WHOLE, REAL, REAL]


def column(i):
    return (0, i)


def block(i):
    return (1, i)


# name, kind, parameters, sources
BLOCKS = [
    ("demand", 14, [(REAL, 15.0), (REAL, -10.0), (REAL, 0.0), (REAL, 100.0)], [column(3)]),
    ("load", 10, [(REAL, 0.0), (REAL, 100.0)], [block(0)]),
    ("memory", 3, [(REAL, 60.0)], [block(4)]),
    ("decay", 14, [(REAL, 0.0), (REAL, 100.0), (REAL, 5.0), (REAL, 93.5)], [block(2)]),
    ("held", 10, [(REAL, 10.0), (REAL, 90.0)], [block(3)]),
    ("stages", 12, [(WHOLE, 4)], [block(1)]),
    ("proved", 15, [(WHOLE, 3)], [block(7)]),
    ("run", 4, [], [column(0), column(1)]),
    ("latch", 1, [(BINARY, 0)], [block(9)]),
    ("fire", 5, [], [block(6), block(10)]),
    ("keep", 4, [], [block(8), block(7)]),
    ("edge", 6, [], [block(7), block(12)]),
    ("last", 1, [(BINARY, 1)], [block(7)]),
    ("total", 2, [(WHOLE, -300)], [block(14)]),
    ("sum", 11, [], [block(13), column(2)]),
    ("idle", 7, [], [block(9)]),
    ("purge", 15, [(WHOLE, 20)], [block(15)]),
    ("", 11, [], [block(14), block(5)]),
    ("return", 10, [(REAL, 30.0), (REAL, 55.5)], [column(4)]),
]


class Bits:
    def __init__(self):
        self.bits = []

    def put(self, value, width):
        self.bits += [value >> (width - 1 - i) & 1 for i in range(width)]

    def pad(self):
        self.bits += [0] * (-len(self.bits) % 8)

    def bytes(self):
        return bytes(int("".join(map(str, self.bits[i : i + 8])), 2) for i in range(0, len(self.bits), 8))


def drawing():
    out = Bits()
    out.put(1, 8)
    out.put(len(COLUMNS), 4)
    out.put(len(BLOCKS), 7)
    out.put(0, 5)
    for t in COLUMNS:
        out.put(t, 2)
    out.pad()
    for name, kind, parameters, sources in BLOCKS:
        out.put(kind, 6)
        out.put(len(sources), 3)
        out.put(len(parameters), 3)
        out.put(len(name), 4)
        for is_block, number in sources:
            out.put(is_block, 1)
            out.put(number, 7)
        for t, value in parameters:
            out.put(t, 2)
            if t == BINARY:
                out.put(value, 1)
            elif t == WHOLE:
                out.put(value & 0xFFFF, 16)
            else:
                out.put(struct.unpack(">I", struct.pack(">f", value))[0], 32)
        out.pad()
        for byte in name.encode():
            out.put(byte, 8)
    return out.bytes()


def sheet():
    lines = ["binary,binary,whole,real,real"]
    for c in range(1200):
        call = "on" if c % 97 < 60 else "off"
        flow = "1" if c % 41 > 2 else "0"
        lines.append(f"{call},{flow},{c % 13 - 5},{(c * 7 % 331) / 8 - 12},{40 + c % 29 * 0.75}")
    return "\n".join(lines) + "\n"


folder = sys.argv[1]
with open(f"{folder}/drawing", "wb") as f:
    f.write(drawing())
with open(f"{folder}/sheet", "w") as f:
    f.write(sheet())
