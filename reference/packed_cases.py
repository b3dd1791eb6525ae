#!/usr/bin/env python3
"""Writes the table of packed files that the program packed_cases runs, and what it must print.

An independent counterpart of the reader, the check and the writer, from docs/rules alone: it encodes drafts field by
field, damages every field in every way in which it can be damaged, and judges the files by a decoder and a check of
its own. Run it in the repository's root: it writes crates/packed_cases/data/cases.txt and crates/packed_cases/stdout.
"""
import struct
from itertools import product

BINARY, WHOLE, REAL = 1, 2, 3
WIDTH = {BINARY: 1, WHOLE: 16, REAL: 32}


class Fault(Exception):
    """A number and a place."""


# Drafts are (columns, blocks); a block is (kind, sources, parameters, name), a source ('block' or 'column', number),
# a parameter (type, pattern).


def encode(columns, blocks):
    """The fields of a draft's file in order: (name, width, value)."""
    fields = [("edition", 8, 1), ("columns", 4, len(columns)), ("blocks", 7, len(blocks))]

    def zeros(where, count):
        fields.extend((f"{where}.zero{i}", 1, 0) for i in range(count))

    def pad(where):
        zeros(where, -sum(width for _, width, _ in fields) % 8)

    zeros("header", 5)
    fields.extend((f"column{i}.type", 2, t) for i, t in enumerate(columns))
    pad("columns")
    for b, (kind, sources, params, name) in enumerate(blocks):
        at = f"block{b}"
        fields += [(f"{at}.kind", 6, kind), (f"{at}.inputs", 3, len(sources)), (f"{at}.params", 3, len(params)),
                   (f"{at}.length", 4, len(name))]
        for i, (what, number) in enumerate(sources):
            fields += [(f"{at}.source{i}.bit", 1, int(what == "block")), (f"{at}.source{i}.number", 7, number)]
        for i, (t, pattern) in enumerate(params):
            fields += [(f"{at}.param{i}.type", 2, t), (f"{at}.param{i}.value", WIDTH[t], pattern)]
        pad(at)
        fields.extend((f"{at}.byte{i}", 8, byte) for i, byte in enumerate(name))
    return fields


def packed(fields):
    bits = "".join(format(value, f"0{width}b") for _, width, value in fields)
    bits += "0" * (-len(bits) % 8)
    return bytes(int(bits[i:i + 8], 2) for i in range(0, len(bits), 8))


def decode(file):
    """The draft of a file; raises its first fault."""
    bits = "".join(format(byte, "08b") for byte in file)
    at = 0

    def field(width, number, good):
        nonlocal at
        if len(bits) < at + width:
            raise Fault(1, at, 0)
        value = int(bits[at:at + width], 2)
        if not good(value):
            raise Fault(number, at, 0)
        at += width
        return value

    def anything(_):
        return True

    def zeros(count):
        for _ in range(count):
            field(1, 5, lambda v: v == 0)

    field(8, 2, lambda v: v == 1)
    column_count = field(4, 3, lambda v: v <= 8)
    block_count = field(7, 3, lambda v: 1 <= v <= 64)
    zeros(5)
    columns = [field(2, 4, lambda v: v > 0) for _ in range(column_count)]
    zeros(-at % 8)
    blocks = []
    for _ in range(block_count):
        kind = field(6, 0, anything)
        inputs, params, length = (field(w, 3, lambda v, m=m: v <= m) for w, m in ((3, 4), (3, 4), (4, 8)))
        sources = []
        for _ in range(inputs):
            is_block = field(1, 0, anything)
            sources.append(("block" if is_block else "column", field(7, 0, anything)))
        values = []
        for _ in range(params):
            t = field(2, 4, lambda v: v > 0)
            values.append((t, field(WIDTH[t], 6, lambda v: t != REAL or v >> 23 & 255 != 255)))
        zeros(-at % 8)
        name = [field(8, 7, lambda v: 32 <= v <= 126) for _ in range(length)]
        blocks.append((kind, sources, values, name))
    if at < len(bits):
        raise Fault(8, at, 0)
    return columns, blocks


# The plant library: inputs, parameters, output, delaying.
KINDS = {
    1: ([BINARY], [BINARY], BINARY, True), 2: ([WHOLE], [WHOLE], WHOLE, True), 3: ([REAL], [REAL], REAL, True),
    4: ([BINARY] * 2, [], BINARY, False), 5: ([BINARY] * 2, [], BINARY, False), 6: ([BINARY] * 2, [], BINARY, False),
    7: ([BINARY], [], BINARY, False), 10: ([REAL], [REAL] * 2, REAL, False), 11: ([WHOLE] * 2, [], WHOLE, False),
    12: ([REAL], [WHOLE], WHOLE, False), 14: ([REAL], [REAL] * 4, REAL, False), 15: ([BINARY], [WHOLE], BINARY, False),
}


def number_of(param):
    t, pattern = param
    if t == WHOLE:
        return pattern - 0x10000 if pattern & 0x8000 else pattern
    return struct.unpack(">f", pattern.to_bytes(4, "big"))[0] if t == REAL else pattern


def lawful(kind, params):
    p = [number_of(x) for x in params]
    return {10: lambda: p[0] <= p[1], 12: lambda: 1 <= p[0] <= 16, 14: lambda: p[0] != p[1],
            15: lambda: 1 <= p[0] <= 32767}.get(kind, lambda: True)()


def check(columns, blocks):
    """Raises the first fault of a draft."""
    for b, (kind, sources, params, _) in enumerate(blocks):
        if kind not in KINDS:
            raise Fault(11, b, 0)
        inputs, types, _, _ = KINDS[kind]
        if len(sources) != len(inputs):
            raise Fault(12, b, 0)
        if len(params) != len(types):
            raise Fault(13, b, 0)
        for p, (t, _) in enumerate(params):
            if t != types[p]:
                raise Fault(13, b, p)
        if not lawful(kind, params):
            raise Fault(14, b, 0)
    outputs = [KINDS[kind][2] for kind, _, _, _ in blocks]
    for b, (kind, sources, _, _) in enumerate(blocks):
        for i, (what, number) in enumerate(sources):
            given = outputs if what == "block" else columns
            if number >= len(given):
                raise Fault(15, b, i)
            if given[number] != KINDS[kind][0][i]:
                raise Fault(16, b, i)
    # blocks that are not delaying and never become ready are those on a closed chain, or fed by one
    worked = {b for b, block in enumerate(blocks) if KINDS[block[0]][3]}
    for _ in blocks:
        worked |= {b for b, block in enumerate(blocks)
                   if all(what == "column" or number in worked for what, number in block[1])}
    if len(worked) < len(blocks):
        raise Fault(17, min(set(range(len(blocks))) - worked), 0)


def judged(file):
    """What the program prints of a file. A file that reads must also be written back as the same bytes."""
    try:
        columns, blocks = decode(file)
    except Fault as fault:
        return "refused %d layer 4 at %d %d" % fault.args
    assert packed(encode(columns, blocks)) == file
    try:
        check(columns, blocks)
    except Fault as fault:
        return "refused %d layer 4 at %d %d same" % fault.args
    return "ok same"


def real(x):
    return REAL, int.from_bytes(struct.pack(">f", x), "big")


def block(n):
    return "block", n


def column(n):
    return "column", n


DEMONSTRATION = ([WHOLE], [(2, [block(1)], [(WHOLE, 5)], b"D"), (11, [block(0), column(0)], [], b"")])
BUILT_IN = ([], [(1, [block(0)], [(BINARY, 0)], b"")])
# every kind of field, at places where each can be damaged in every way: a type across two bytes (the last parameter
# of block 0), the value of a binary that begins a byte (the third parameter of block 1), zero bits after parameters
SAMPLE = (
    [REAL, WHOLE, BINARY, REAL, WHOLE],
    [
        (63, [block(127), column(0), column(127), block(2)], [(BINARY, 1), (WHOLE, 0x8000), real(-1.5), (BINARY, 1)], b" ~"),
        (0, [], [(BINARY, 0), (BINARY, 1), (BINARY, 1), real(0.0)], b"Z"),
        (11, [column(1), column(4)], [], b"12345678"),
    ],
)
LONGEST = ([REAL] * 8, [(k, [block(127)] * 4, [real(3.4028234663852886e38)] * 4, b"long way") for k in range(64)])


def damages(name, width, value):
    """The values that make a field faulty, with what they are."""
    last = name.split(".")[-1]
    if last == "edition":
        return [("zero", 0), ("two", 2)]
    if last == "columns":
        return [("nine", 9), ("fifteen", 15)]
    if last == "blocks":
        return [("none", 0), ("65", 65), ("127", 127)]
    if last in ("inputs", "params"):
        return [("five", 5), ("seven", 7)]
    if last == "length":
        return [("nine", 9), ("fifteen", 15)]
    if last == "type":
        return [("none", 0)]
    if last.startswith("zero"):
        return [("one", 1)]
    if last == "value" and width == 32:
        return [("infinite", 0x7F800000), ("minus-infinite", 0xFF800000), ("no-number", 0x7FC00000)]
    if last.startswith("byte"):
        return [("31", 31), ("127", 127), ("255", 255)]
    return []


def damaged(columns, blocks):
    """Every field of a draft's file, damaged in every way."""
    fields = encode(columns, blocks)
    file = packed(fields)
    at = 0
    for i, (name, width, value) in enumerate(fields):
        # a cut shows at this field where it begins before and ends after the end of the bytes kept
        cuts = [n for n in range(len(file)) if at <= 8 * n < at + width]
        for n in cuts[:1]:
            yield f"{name}-cut", file[:n], (1, at, 0)
        for what, bad in damages(name, width, value):
            number = {"edition": 2, "type": 4, "value": 6}.get(name.split(".")[-1], 3)
            number = 5 if ".zero" in name else 7 if ".byte" in name else number
            changed = packed(fields[:i] + [(name, width, bad)] + fields[i + 1:])
            yield f"{name}-{what}", changed, (number, at, 0)
        at += width
    yield "end-byte", file + b"\0", (8, at, 0)


def faulty_drafts():
    """Drafts that read and are not drawings, by the number that is told."""
    whole = (WHOLE, 1)
    yield "11", ([], [(1, [block(0)], [(BINARY, 0)], b""), (8, [], [], b"")])
    yield "11-largest", ([], [(63, [], [], b"")])
    yield "12-few", ([], [(7, [], [], b"")])
    yield "12-many", ([BINARY], [(7, [column(0), column(0)], [], b"")])
    yield "13-few", ([], [(2, [block(0)], [], b"")])
    yield "13-many", ([], [(2, [block(0)], [whole, whole], b"")])
    yield "13-type", ([REAL], [(10, [column(0)], [real(1), whole], b"")])
    yield "14-limit", ([REAL], [(10, [column(0)], [real(2), real(1)], b"")])
    yield "14-sequence", ([REAL], [(12, [column(0)], [(WHOLE, 17)], b"")])
    yield "14-scale", ([REAL], [(14, [column(0)], [real(0), real(-0.0), real(1), real(2)], b"")])
    yield "14-on-delay", ([BINARY], [(15, [column(0)], [(WHOLE, 0xFFFF)], b"")])
    yield "15-column", ([BINARY], [(4, [column(0), column(1)], [], b"")])
    yield "15-block", ([], [(7, [block(1)], [], b"")])
    yield "16-column", ([WHOLE], [(4, [column(0), column(0)], [], b"")])
    yield "16-block", ([REAL], [(12, [column(0)], [whole], b""), (4, [block(1), block(0)], [], b"")])
    yield "17-self", ([], [(7, [block(0)], [], b"not")])
    yield "17-fed", ([], [(1, [block(1)], [(BINARY, 1)], b""), (7, [block(2)], [], b""), (7, [block(2)], [], b"")])
    # the first of several faults: round 1 before round 2, lower blocks before higher ones
    yield "first", ([], [(7, [block(9)], [], b""), (12, [column(0)], [real(1)], b""), (40, [], [], b"")])


def good_drafts():
    yield "demonstration", DEMONSTRATION
    yield "built-in", BUILT_IN
    yield "through-delay", ([], [(7, [block(1)], [], b"not"), (1, [block(0)], [(BINARY, 1)], b"delay")])
    yield "every-kind", (
        [BINARY, WHOLE, REAL],
        [
            (1, [column(0)], [(BINARY, 1)], b"DELB"), (2, [column(1)], [(WHOLE, 0x8000)], b"DELI"),
            (3, [column(2)], [real(-0.0)], b"DELR"), (4, [block(0), column(0)], [], b"AND"),
            (5, [block(0), block(3)], [], b"OR"), (6, [block(4), block(3)], [], b"XOR"), (7, [block(5)], [], b"NOT"),
            (10, [block(2)], [real(-1e-45), real(3.4028234663852886e38)], b"LIMIT"),
            (11, [block(1), column(1)], [], b"ADD"), (12, [block(7)], [(WHOLE, 16)], b"SEQ"),
            (14, [block(7)], [real(4), real(20), real(0), real(100)], b"SCALE"),
            (15, [block(6)], [(WHOLE, 32767)], b"ONDT"),
        ],
    )
    yield "64-blocks", ([], [(2, [block(63 - b)], [(WHOLE, b)], b"%08d" % b) for b in range(64)])


def cases():
    """Each file of the table with its label."""
    for label, draft in good_drafts():
        file = packed(encode(*draft))
        assert judged(file) == "ok same", label
        yield label, file
    yield "empty", b""
    for base, draft in (("sample", SAMPLE), ("demonstration", DEMONSTRATION)):
        for label, file, (number, a, b) in damaged(*draft):
            assert judged(file) == f"refused {number} layer 4 at {a} {b}", label
            # the edition is cut short only in the empty file
            if file:
                yield f"{base}.{label}", file
    for label, draft in faulty_drafts():
        yield f"check.{label}", packed(encode(*draft))
    yield "sample", packed(encode(*SAMPLE))
    yield "longest", packed(encode(*LONGEST))


def main():
    table = list(cases())
    assert len({label for label, _ in table}) == len(table)
    assert len(packed(encode(*LONGEST))) == 1989
    assert packed(encode(*DEMONSTRATION)).hex() == "011040800891818001" "40442d008000"
    with open("crates/packed_cases/data/cases.txt", "w") as out:
        out.writelines(f"{label} {file.hex().upper()}\n" for label, file in table)
    with open("crates/packed_cases/stdout", "w") as out:
        out.writelines(f"{label} {judged(file)}\n" for label, file in table)


main()
