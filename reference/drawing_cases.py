#!/usr/bin/env python3
"""A table of drawings for the check, and what the check must say of each.

    drawing_cases.py cases     the table: LABEL and the packed file in hexadecimal, a line each
    drawing_cases.py stdout    what the program drawing_cases prints for it

The verdicts come from the rules and not from the program: closed chains are found by reachability, and the order is
then held against them.
"""
import struct
import sys

B, W, R = "binary", "whole", "real"
CODE = {B: 1, W: 2, R: 3}

# kind: inputs, parameters, output, delaying, lawful
PLANT = {
    1: ([B], [B], B, True, None),
    2: ([W], [W], W, True, None),
    3: ([R], [R], R, True, None),
    4: ([B, B], [], B, False, None),
    5: ([B, B], [], B, False, None),
    6: ([B, B], [], B, False, None),
    7: ([B], [], B, False, None),
    10: ([R], [R, R], R, False, lambda p: p[0] <= p[1]),
    11: ([W, W], [], W, False, None),
    12: ([R], [W], W, False, lambda p: 1 <= p[0] <= 16),
    14: ([R], [R, R, R, R], R, False, lambda p: p[0] != p[1]),
    15: ([B], [W], B, False, lambda p: 1 <= p[0] <= 32767),
}
DELB, DELI, DELR, AND, OR, XOR, NOT, LIMIT, ADD, SEQ, SCALE, ONDT = PLANT


def col(n):
    return ("column", n)


def blk(n):
    return ("block", n)


def block(kind, sources, params=(), name=""):
    return {"kind": kind, "sources": list(sources), "params": list(params), "name": name}


# The packed file.


def pack(columns, blocks):
    bits = []

    def put(width, number):
        bits.extend((number >> i) & 1 for i in reversed(range(width)))

    def fill():
        while len(bits) % 8:
            bits.append(0)

    put(8, 1), put(4, len(columns)), put(7, len(blocks)), put(5, 0)
    for t in columns:
        put(2, CODE[t])
    fill()
    for b in blocks:
        put(6, b["kind"]), put(3, len(b["sources"])), put(3, len(b["params"])), put(4, len(b["name"]))
        for kind, number in b["sources"]:
            put(1, int(kind == "block")), put(7, number)
        for t, v in b["params"]:
            put(2, CODE[t])
            if t == B:
                put(1, v)
            elif t == W:
                put(16, v & 0xFFFF)
            else:
                put(32, struct.unpack(">I", struct.pack(">f", v))[0])
        fill()
        for c in b["name"]:
            put(8, ord(c))
    return bytes(int("".join(map(str, bits[i:i + 8])), 2) for i in range(0, len(bits), 8))


# The check: a refusal (number, block, part), or the order.


def block_fault(b):
    if b["kind"] not in PLANT:
        return 11, 0
    inputs, params, _, _, lawful = PLANT[b["kind"]]
    if len(b["sources"]) != len(inputs):
        return 12, 0
    if len(b["params"]) != len(params):
        return 13, 0
    for p, (has, asked) in enumerate(zip(b["params"], params)):
        if has[0] != asked:
            return 13, p
    if lawful and not lawful([v for _, v in b["params"]]):
        return 14, 0
    return None


def source_type(columns, blocks, source):
    kind, n = source
    if kind == "column":
        return columns[n] if n < len(columns) else None
    return PLANT[blocks[n]["kind"]][2] if n < len(blocks) else None


def delays(b):
    return PLANT[b["kind"]][3]


def looped(blocks):
    """The feed-through blocks that a closed chain of such blocks reaches, its own among them."""
    n = len(blocks)
    through = [not delays(b) for b in blocks]
    reach = [[False] * n for _ in range(n)]
    for v, b in enumerate(blocks):
        for kind, u in b["sources"]:
            if kind == "block" and through[u] and through[v]:
                reach[u][v] = True
    for k in range(n):
        for u in range(n):
            if reach[u][k]:
                for v in range(n):
                    reach[u][v] = reach[u][v] or reach[k][v]
    return [v for v in range(n) if reach[v][v] or any(reach[u][u] and reach[u][v] for u in range(n))]


def order_of(blocks):
    order = []
    while True:
        ready = [v for v, b in enumerate(blocks) if v not in order
                 and (delays(b) or all(u in order for kind, u in b["sources"] if kind == "block"))]
        if not ready:
            return order
        order.append(ready[0])


def check(columns, blocks):
    for v, b in enumerate(blocks):
        fault = block_fault(b)
        if fault:
            return "refused", fault[0], v, fault[1]
    for v, b in enumerate(blocks):
        for i, source in enumerate(b["sources"]):
            t = source_type(columns, blocks, source)
            if t is None:
                return "refused", 15, v, i
            if t != PLANT[b["kind"]][0][i]:
                return "refused", 16, v, i
    left, order = looped(blocks), order_of(blocks)
    assert sorted(left + order) == list(range(len(blocks)))
    if left:
        return "refused", 17, left[0], 0
    return "order", order


# The table.

on, off = (B, 1), (B, 0)
CASES = []


def case(label, columns, blocks):
    CASES.append((label, columns, blocks))


def delb(source, start=off):
    return block(DELB, [source], [start])


def inv(source, name=""):
    return block(NOT, [source], name=name)


def ring(n, first=0):
    """n inverters, each fed by the one before it and the first by the last."""
    return [inv(blk(first + (v - 1) % n)) for v in range(n)]


# Round 1: the kind.
for kind in (0, 8, 9, 13, 16, 63):
    case(f"kind-{kind}", [], [block(kind, [])])
case("kind-later", [B], [inv(col(0)), inv(blk(0)), block(62, [col(0)])])
case("kind-of-the-last-of-64", [B], [inv(col(0))] * 63 + [block(63, [])])
# The number of inputs.
case("inputs-none", [], [block(NOT, [])])
case("inputs-one-too-many", [B], [inv(col(0)), block(NOT, [col(0), col(0)])])
case("inputs-one-too-few", [B], [delb(col(0)), delb(col(0)), block(AND, [col(0)])])
case("inputs-four", [R], [block(LIMIT, [col(0)] * 4, [(R, 0), (R, 1)])])
# The number of parameters, and their types.
case("parameters-none", [B], [block(DELB, [col(0)])])
case("parameters-too-many", [B], [inv(col(0)), block(NOT, [col(0)], [on])])
case("parameters-too-few", [R], [block(SCALE, [col(0)], [(R, 0), (R, 1), (R, 2)])])
case("parameter-0-type", [W], [block(DELI, [col(0)], [(R, 1)])])
case("parameter-1-type", [R], [block(LIMIT, [col(0)], [(R, 0), (W, 1)])])
case("parameter-2-type", [B, R], [inv(col(0)), block(SCALE, [col(1)], [(R, 0), (R, 1), on, (R, 1)])])
case("parameter-3-type", [R], [block(SCALE, [col(0)], [(R, 0), (R, 1), (R, 0), (W, 1)])])
# Lawfulness.
case("limit-crossed", [R], [block(LIMIT, [col(0)], [(R, 1), (R, 0.5)])])
case("stages-0", [R], [block(SEQ, [col(0)], [(W, 0)])])
case("stages-17", [B, R], [inv(col(0)), block(SEQ, [col(1)], [(W, 17)])])
case("scale-of-nothing", [R], [block(SCALE, [col(0)], [(R, 2), (R, 2), (R, 0), (R, 1)])])
case("delay-0", [B], [block(ONDT, [col(0)], [(W, 0)])])
case("delay-negative", [B], [inv(col(0)), inv(col(0)), block(ONDT, [col(0)], [(W, -1)])])
# Two faults in one block.
case("both-counts", [], [block(NOT, [], [on])])
case("inputs-and-law", [R], [block(LIMIT, [], [(R, 1), (R, 0)])])
case("two-types", [R], [block(LIMIT, [col(0)], [on, on])])
case("type-and-law", [R], [block(SCALE, [col(0)], [(R, 2), (R, 2), (R, 0), (W, 1)])])
case("law-and-source", [], [block(SEQ, [col(0)], [(W, 99)])])
case("two-sources", [B, W], [block(AND, [col(1), col(7)])])
# Rounds: a fault of an earlier round in a later block comes first.
case("source-then-kind", [B], [inv(col(5)), inv(col(0)), block(63, [])])
case("type-then-law", [W], [inv(col(0)), block(ONDT, [col(0)], [(W, 0)])])
case("loop-then-source", [B], [inv(blk(0)), inv(col(1))])
case("loop-then-type", [B, R], ring(3) + [block(OR, [col(0), col(1)])])
case("input-1-then-input-0", [B, W], [inv(col(0)), block(XOR, [col(0), col(1)]), inv(col(9))])
# Sources that are not there.
case("column-of-none", [], [inv(col(0))])
case("column-one-past", [B, B], [inv(col(1)), inv(col(2))])
case("column-127", [B], [block(AND, [col(0), col(127)])])
case("block-one-past", [], [inv(blk(1))])
case("block-one-past-of-3", [B], [inv(col(0)), block(AND, [blk(2), blk(3)]), inv(col(0))])
case("block-127", [], [delb(blk(127))])
# Sources of another type.
case("type-of-a-column", [W], [inv(col(0))])
case("type-of-a-column-1", [W, R], [block(ADD, [col(0), col(1)])])
case("type-of-a-block", [R], [block(SEQ, [col(0)], [(W, 4)]), inv(blk(0))])
case("type-of-a-later-block", [W], [delb(blk(1)), block(DELI, [col(0)], [(W, 5)])])
case("type-of-itself", [R], [block(SEQ, [blk(0)], [(W, 16)])])
# Closed chains.
case("chain-of-1", [], [inv(blk(0))])
case("chain-of-2", [], ring(2))
case("chain-of-5", [], ring(5))
case("chain-of-64", [], ring(64))
case("chain-of-1-at-2", [B], [inv(col(0)), inv(blk(0)), block(AND, [blk(1), blk(2)])])
case("fed-from-a-higher-chain", [], [inv(blk(2)), inv(blk(2)), inv(blk(3)), inv(blk(2))])
case("fed-through-another", [B], [inv(blk(1)), inv(blk(3)), inv(col(0)), block(OR, [blk(3), col(0)])])
case("fed-through-a-delay", [], [inv(blk(1)), delb(blk(2)), inv(blk(2))])
case("two-chains", [], [delb(blk(2)), *ring(2, 1), *ring(2, 3)])
case("chain-beside-a-cut-one", [], [inv(blk(1)), delb(blk(0)), inv(blk(3)), inv(blk(2))])
# Accepted.
case("built-in", [], [delb(blk(0))])
case("one-column", [B], [inv(col(0), "NOT")])
case("inverter-through-a-delay", [], [inv(blk(1)), delb(blk(0))])
case("counter", [W], [block(DELI, [blk(1)], [(W, 5)], "D"), block(ADD, [blk(0), col(0)])])
case("backwards", [B], [inv(blk(1)), inv(blk(2)), inv(blk(3)), inv(blk(4)), inv(col(0))])
case("cut-of-5", [], [inv(blk(4)), inv(blk(0)), delb(blk(1)), inv(blk(2)), inv(blk(3))])
case("lowest-first", [B], [block(AND, [blk(3), blk(1)]), inv(blk(4)), inv(col(0)), inv(blk(2)), delb(blk(0))])
case("both-inputs-one-source", [B], [block(XOR, [blk(1), blk(1)]), inv(col(0))])
case("delays-on-delays", [], [delb(blk(1)), delb(blk(2)), delb(blk(0))])
case("law-at-its-limits", [B, R], [
    block(LIMIT, [col(1)], [(R, -1.5), (R, -1.5)]), block(SEQ, [blk(0)], [(W, 1)]), block(SEQ, [blk(0)], [(W, 16)]),
    block(ADD, [blk(1), blk(2)]), block(ONDT, [col(0)], [(W, 1)]), block(ONDT, [blk(4)], [(W, 32767)]),
    block(SCALE, [blk(0)], [(R, 1), (R, 0), (R, 0), (R, 100)]), block(DELR, [blk(6)], [(R, 20.25)])])
case("eight-columns", [B, W, R, B, W, R, B, W], [
    block(ADD, [col(7), col(4)]), block(AND, [col(6), col(3)]), block(LIMIT, [col(5)], [(R, 0), (R, 1)])])
case("64-forwards", [B], [inv(col(0))] + [inv(blk(v - 1)) for v in range(1, 64)])
case("64-backwards", [B], [inv(blk(v + 1)) for v in range(63)] + [inv(col(0))])
case("64-cut-once", [], [inv(blk((v - 1) % 64)) for v in range(40)] + [delb(blk(39))] + [inv(blk(v - 1)) for v in range(41, 64)])


def main():
    assert len({label for label, _, _ in CASES}) == len(CASES)
    for label, columns, blocks in CASES:
        if sys.argv[1] == "cases":
            print(label, pack(columns, blocks).hex().upper())
            continue
        verdict = check(columns, blocks)
        if verdict[0] == "order":
            print(label, "order", *verdict[1])
        else:
            print(label, f"refused {verdict[1]} layer 2 at {verdict[2]} {verdict[3]}")


main()
