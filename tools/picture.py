#!/usr/bin/env python3
"""Draws the plan of a table as the panel shows it: slots down, links across, each row in a colour of its own. Of a late table
it draws why: the slots of one link, and above them the cells that have to go into them.

Usage: python3 tools/picture.py PROGRAM TABLE > PICTURE.svg
"""
import subprocess
import sys

CELL, LEFT, TOP = 34, 70, 56
ACROSS = 24
TEXT = '<text x="%d" y="%d" text-anchor="%s" fill="%s">%s</text>'


def picture(width, height, shapes):
    """The lines of a picture of that size."""
    head = '<svg xmlns="http://www.w3.org/2000/svg" width="%d" height="%d" font-family="sans-serif" font-size="13">' % (width, height)
    return [head, '<rect width="100%" height="100%" fill="white"/>'] + shapes + ["</svg>"]


def square(x, y, row, frame):
    """A square of the paper, with the number and the colour of the row in it, 0 for none, in a frame of a colour and a width."""
    fill = "hsl(%d,70%%,82%%)" % (row * 137 % 360) if row else "white"
    out = ['<rect x="%d" y="%d" width="%d" height="%d" fill="%s" stroke="%s" stroke-width="%d"/>' % ((x + 2, y + 2, CELL - 4, CELL - 4, fill) + frame)]
    if row:
        out.append(TEXT % (x + CELL // 2, y + CELL // 2 + 5, "middle", "#111", row))
    return out


def plan_picture(said, rows):
    """The plan that the program printed for the rows."""
    arrivals = [int(line[7:]) for line in said if line.startswith("arrive=")]
    slots = [[int(entry) for entry in line[5:].split(",")] for line in said if line.startswith("send=")]
    links = len(slots[0])
    width, height = LEFT + links * CELL + 20, TOP + len(slots) * CELL + 46
    out = [TEXT % (LEFT, 20, "start", "#333", "link"), TEXT % (LEFT - 12, TOP - 8, "end", "#333", "slot")]
    for p in range(links):
        out.append(TEXT % (LEFT + p * CELL + CELL // 2, TOP - 8, "middle", "#333", p))
    for t, slot in enumerate(slots):
        y = TOP + t * CELL
        out.append(TEXT % (LEFT - 12, y + CELL // 2 + 5, "end", "#333", t))
        for p, row in enumerate(slot):
            # the frame is bold where the row's last cell arrives at the end of this slot
            arrives = row and arrivals[row - 1] == t + 1 and rows[row - 1][1] == (p + 1) % links
            out += square(LEFT + p * CELL, y, row, ("#222", 2) if arrives else ("#bbb", 1))
    out.append(TEXT % (LEFT, height - 16, "start", "#333", "bold: the row arrives as the slot ends"))
    return picture(width, height, out)


def links_on(p, dst, nodes):
    """The links from node p on to a destination, all of them where that is p itself."""
    return (dst - p - 1) % nodes + 1


def must_cross(nodes, rows, p, b):
    """The row of each cell that must cross link p before slot b, those that must cross it first in front."""
    found = []
    for row, (src, dst, length, due) in enumerate(rows, 1):
        on = links_on(p, dst, nodes)
        if on <= links_on(src, dst, nodes):
            found += [(due - behind - on, row) for behind in range(length) if due - behind < b + on]
    return [row for _, row in sorted(found)]


def first_jam(nodes, rows, p):
    """The first slot before which too many cells must cross link p: how many, the link, the slot and the cells' rows."""
    for b in range(max(due for _, _, _, due in rows) + 1):
        cells = must_cross(nodes, rows, p, b)
        if len(cells) > b:
            return len(cells), p, b, cells
    return None


def jam(nodes, rows):
    """Why a table is late: of the links that have too many cells the one with the fewest, the lowest on a tie."""
    return min(filter(None, (first_jam(nodes, rows, p) for p in range(nodes))))


def jam_picture(count, link, before, cells):
    """Squared paper of one link: in each line some of the cells, and below them the slots that there are for them."""
    lines = range(0, count, ACROSS)
    width, height = LEFT + max(min(count, ACROSS), 8) * CELL + 20, TOP + len(lines) * 3 * CELL + 12
    said = "%d cell%s must cross link %d before slot %d" % (count, "s" if count > 1 else "", link, before)
    out = [TEXT % (LEFT, 28, "start", "#111", said)]
    for k, first in enumerate(lines):
        y = TOP + k * 3 * CELL
        out.append(TEXT % (LEFT - 12, y + CELL // 2 + 5, "end", "#333", "row"))
        out.append(TEXT % (LEFT - 12, y + CELL + CELL // 2 + 5, "end", "#333", "slot"))
        for i, row in enumerate(cells[first : first + ACROSS]):
            x = LEFT + i * CELL
            # the frame is bold where no slot is left
            out += square(x, y, row, ("#222", 2) if first + i >= before else ("#bbb", 1))
            if first + i < before:
                out += square(x, y + CELL, 0, ("#bbb", 1))
                out.append(TEXT % (x + CELL // 2, y + CELL + CELL // 2 + 5, "middle", "#999", first + i))
    out.append(TEXT % (LEFT, height - 16, "start", "#333", "bold: no slot is left for the cell"))
    return picture(width, height, out)


def main():
    program, table = sys.argv[1:3]
    said = subprocess.run([program], stdin=open(table, "rb"), capture_output=True, check=True).stdout.decode().split("\n")
    if said[0] not in ("answer=0", "answer=9"):
        sys.exit("picture: the table is refused: " + ", ".join(said[:3]))
    nodes, _, *numbers = [int(line.split("=")[1]) for line in open(table)]
    rows = list(zip(*[iter(numbers)] * 4))
    late = said[0] == "answer=9"
    print("\n".join(jam_picture(*jam(nodes, rows)) if late else plan_picture(said, rows)))


main()
