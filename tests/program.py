#!/usr/bin/env python3
"""The plan program against a model written from documents 01 and 02 alone.

Usage: python3 tests/program.py PROGRAM

The program is run on the sweep cases, on rows of several cells, on rows that go once round, on texts of the old form, on every prefix
and many single-byte changes of two small texts, on long texts, and on random tables; what it prints is compared byte by byte. The last
line counts the runs.
"""
import random
import re
import subprocess
import sys

KEYS = ("src", "dst", "len", "due")
LIMIT = 24576


class Refused(Exception):
    def __init__(self, number, row=0, slot=0):
        super().__init__(number, row, slot)
        self.three = (number, row, slot)


def read(text):
    """N and the rows of a text, or the refusal of its first wrong line."""
    at = 0

    def line(number, key):
        nonlocal at
        found = re.compile(rb"%s=(0|[1-9][0-9]{0,4})\n" % key.encode()).match(text, at)
        if not found or int(found.group(1)) > 65535:
            raise Refused(20, number)
        at = found.end()
        return int(found.group(1))

    nodes = line(1, "nodes")
    count = line(2, "rows")
    if count > 512:
        raise Refused(2)
    rows = [tuple(line(3 + 4 * i + j, key) for j, key in enumerate(KEYS)) for i in range(count)]
    if at < len(text):
        raise Refused(20, 3 + 4 * count)
    return nodes, rows


def judge(nodes, rows):
    if not 2 <= nodes <= 32:
        raise Refused(1)
    for number, (src, dst, length, due) in enumerate(rows, 1):
        if src >= nodes:
            raise Refused(3, number)
        if dst >= nodes:
            raise Refused(4, number)
        if not 1 <= length <= 64:
            raise Refused(10, number)
        if not 1 <= due <= 1024:
            raise Refused(6, number)
    if sum(length for _, _, length, _ in rows) > 1024:
        raise Refused(11)


def plan(nodes, rows):
    """The arrivals and the slots of the rule of least slack: each cell is a place on the ring that moves."""
    # of each cell its row's index, its destination and its due slot, in the order of rows and then of cells
    cells = [(i, dst, due - (length - j)) for i, (_, dst, length, due) in enumerate(rows) for j in range(1, length + 1)]
    place = [rows[i][0] for i, _, _ in cells]
    arrival = [0] * len(rows)
    slots = []
    t = 0
    waiting = list(range(len(cells)))
    while waiting:
        # links to go are 1 to N: a cell that waits at its destination hasn't left it yet
        slack = {c: cells[c][2] - t - (1 + (cells[c][1] - place[c] - 1) % nodes) for c in waiting}
        for c in waiting:
            if slack[c] < 0:
                raise Refused(9, cells[c][0] + 1, t)
        sent = {}
        for c in waiting:
            if place[c] not in sent or slack[c] < slack[sent[place[c]]]:
                sent[place[c]] = c
        slots.append([cells[sent[p]][0] + 1 if p in sent else 0 for p in range(nodes)])
        t += 1
        for c in sent.values():
            place[c] = (place[c] + 1) % nodes
            if place[c] == cells[c][1]:
                arrival[cells[c][0]] = t
                waiting.remove(c)
    slots += [[0] * nodes] * (max((due for _, _, _, due in rows), default=0) - t)
    return arrival, slots


def expected(text):
    try:
        nodes, rows = read(text[:LIMIT])
        judge(nodes, rows)
        arrival, slots = plan(nodes, rows)
    except Refused as refused:
        return "answer=%d\nrow=%d\nslot=%d\n" % refused.three
    lines = ["answer=0", "row=0", "slot=0", "last=%d" % max(arrival, default=0)]
    lines += ["arrive=%d" % a for a in arrival]
    lines += ["send=" + ",".join(map(str, slot)) for slot in slots]
    return "\n".join(lines) + "\n"


def table(nodes, rows, count=None):
    lines = ["nodes=%d" % nodes, "rows=%d" % (len(rows) if count is None else count)]
    lines += ["%s=%d" % pair for row in rows for pair in zip(KEYS, row)]
    return ("\n".join(lines) + "\n").encode()


def sweep():
    """Document 01's sweep table, all rows of one cell."""
    for nodes, rows in (
        (4, [(0, 2, 3), (0, 1, 2)]),
        (4, [(0, 1, 2), (0, 3, 3)]),
        (4, [(2, 0, 2), (2, 3, 2)]),
        (4, [(0, 1, 1)] * 2),
        (4, [(0, 2, 1)]),
        (2, [(1, 0, 3)] * 3),
        (2, [(1, 0, 2)] * 3),
        (4, []),
        (4, [(0, 0, 1025)]),
        (2, [(0, 1, 1025)]),
        (2, [(0, 1, 1024)]),
        (33, [(40, 0, 0)]),
    ):
        yield table(nodes, [(src, dst, 1, due) for src, dst, due in rows])


def blocks():
    """Rows of several cells: alone, together on a link, past node 0, late, and as many as there may be."""
    for nodes, rows in (
        (4, [(0, 2, 3, 4)]),
        (4, [(0, 2, 3, 3)]),
        (4, [(0, 1, 2, 4), (0, 2, 2, 4)]),
        (4, [(2, 1, 2, 5), (3, 0, 2, 4)]),
        (4, [(0, 1, 3, 9), (0, 3, 1, 10)]),
        (2, [(0, 1, 64, 1)]),
        (2, [(0, 1, 64, 64)]),
        (2, [(0, 1, 2, 4), (0, 1, 3, 3)]),
        (2, [(0, 1, 64, 1024)] * 16),
        (2, [(0, 1, 64, 1024)] * 16 + [(0, 1, 1, 1024)]),
        (2, [(0, 1, 64, 1024)] * 17 + [(0, 1, 65, 0)]),
        (2, [(0, 1, 2, 1024)] * 512),
        (2, [(0, 1, 2, 1024)] * 511 + [(0, 1, 3, 1024)]),
        (4, [(0, 1, 0, 5)]),
        (4, [(0, 1, 65, 0)]),
        (4, [(0, 1, 65535, 5)]),
        (4, [(0, 0, 0, 0)]),
        (4, [(0, 1, 64, 0)]),
    ):
        yield table(nodes, rows)


def turns():
    """Rows from a node to itself: each node of some rings, in time and late by one, beside other rows, and in blocks."""
    for nodes in (2, 3, 4, 31, 32):
        for node in {0, 1, nodes // 2, nodes - 1}:
            for length in (1, 2, 64):
                for due in (nodes + length - 1, nodes + length - 2, 1024):
                    yield table(nodes, [(node, node, length, due)])
    for nodes, rows in (
        (4, [(2, 2, 1, 5), (2, 2, 1, 5)]),
        (4, [(2, 2, 1, 4), (2, 2, 1, 4)]),
        (4, [(node, node, 1, 4) for node in range(4)]),
        (4, [(node, node, 1, 4) for node in range(4)] + [(0, 1, 1, 4)]),
        (4, [(1, 1, 1, 5), (1, 2, 1, 2)]),
        (4, [(1, 2, 1, 2), (1, 1, 1, 4)]),
        (4, [(2, 2, 1, 7)] + [(1, 2, 1, 5)] * 3 + [(1, 2, 1, 8)]),
        (4, [(2, 2, 1, 7)] + [(1, 2, 1, 5)] * 3 + [(1, 2, 1, 6)]),
        (4, [(0, 0, 2, 6), (0, 2, 1, 3)]),
        (2, [(0, 0, 64, 1024)] * 15 + [(0, 0, 63, 1024)]),
        (2, [(0, 0, 64, 1024)] * 16),
        (2, [(1, 1, 64, 1024)] * 16 + [(0, 0, 1, 1)]),
        (4, [(3, 3, 0, 9)]),
        (4, [(3, 3, 65, 0)]),
        (4, [(3, 3, 1, 0)]),
        (4, [(4, 4, 1, 9)]),
        (1, [(0, 0, 1, 9)]),
    ):
        yield table(nodes, rows)


def old_texts():
    """Texts without lengths, and with a length's line doubled or out of its place."""
    for count in (0, 1, 2, 512, 513):
        yield b"nodes=4\nrows=%d\n" % count + b"src=0\ndst=1\ndue=2\n" * count
    for lines in (b"len=1\nlen=1\ndue=2\n", b"due=2\nlen=1\n", b"len=\ndue=2\n", b"len=01\ndue=2\n", b"len=65536\ndue=2\n"):
        yield b"nodes=4\nrows=1\nsrc=0\ndst=1\n" + lines


def damaged():
    """Every prefix of two small texts, and each of their bytes replaced, doubled or dropped."""
    for text in (table(4, [(0, 1, 1, 2), (0, 3, 2, 4)]), table(10, [])):
        for i in range(len(text) + 1):
            yield text[:i]
        for i in range(len(text)):
            for b in b"019= \n\r\x00\xff":
                yield text[:i] + bytes([b]) + text[i + 1 :]
            yield text[: i + 1] + text[i:]
            yield text[:i] + text[i + 1 :]


def long_texts():
    """The longest right text, and texts past the limit."""
    longest = table(65535, [(65535,) * 4] * 512)
    assert len(longest) == 20501
    yield longest
    yield longest + b"x"
    yield longest + b"\n" * (LIMIT - len(longest))
    yield longest + b"\n" * 9000
    yield b"nodes=4\n" * 5000
    yield table(4, [(0, 1, 1, 2)] * 3, 513)
    yield table(33, [], 513)
    yield b""
    for numeral in ("65535", "65536", "00", "01", "", "-1", "+4", " 4", "4 ", "4\r", "99999", "100000", "4294967300"):
        yield b"nodes=" + numeral.encode() + b"\nrows=0\n"
        yield b"nodes=4\nrows=" + numeral.encode() + b"\n"


def random_tables(rng):
    for _ in range(150):
        nodes = rng.randint(2, 32)
        rows = []
        for _ in range(rng.choice((1, 3, 10, 60, 200))):
            src, length = rng.randrange(nodes), rng.choice((1, 1, 1, rng.randint(1, 9), rng.randint(1, 64)))
            due = rng.randint(1, rng.choice((6, 40, 200, 1024)))
            rows.append((src, rng.randrange(nodes), length, due))
        yield table(nodes, rows)
    yield table(32, [(i % 32, (i + 31) % 32, 1, 1024) for i in range(512)])
    yield table(32, [(i % 32, (i + 7) % 32, 2, 1024) for i in range(512)])


def main():
    program = sys.argv[1]
    runs = accepted = 0
    for texts in (sweep(), blocks(), turns(), old_texts(), damaged(), long_texts(), random_tables(random.Random(1))):
        for text in texts:
            said = subprocess.run([program], input=text, capture_output=True, check=True).stdout.decode()
            if said != expected(text):
                sys.exit("program.py: another output than the model's for the text %r:\n%s" % (text[:400], said[:400]))
            runs += 1
            accepted += said.startswith("answer=0\n")
    print("program: %d texts, %d accepted, all as the model says" % (runs, accepted))


main()
