"""Draws a layout with its leaves as outlines, on each panel, from what the program that lists them writes.

Run from the repository's root: python3 -m demo.layout [LIST], the list of boxes in hexadecimal."""
import os
import subprocess
import sys

from demo import picture
from demo.output import OutputClosed, board_text, discard_output, open_streams, say
from simulator.panel import PANELS

PROGRAM = "target/bin/layout_list"
FOLDER = "target/demo"

# A team start: the team's number over a clock, and beside them four rows, each a runner's number and name. A line is a box: its
# child count, its children's weights and their numbers.
TEAM = """
11
02  01 02  01 02
02  03 01  03 04
04  01 01 01 01  05 06 07 08
00
00
02  01 03  09 0A
02  01 03  0B 0C
02  01 03  0D 0E
02  01 03  0F 10
00 00 00 00 00 00 00 00
"""


class Unexpected(Exception):
    """The program wrote what is no layout."""


def main():
    open_streams()
    try:
        boxes = bytes.fromhex(" ".join(sys.argv[1:]) or TEAM)
    except ValueError:
        sys.exit("usage: python3 -m demo.layout [LIST], the list of boxes in hexadecimal")
    if not os.access(PROGRAM, os.X_OK):
        sys.exit("There is no program %s: run `make layout` from the repository's root." % PROGRAM)
    os.makedirs(FOLDER, exist_ok=True)
    for panel in PANELS:
        show(panel, boxes)


def show(panel, boxes):
    written = subprocess.run([PROGRAM], input=bytes([panel.code]) + boxes, stdout=subprocess.PIPE, check=True).stdout.decode()
    say("\nThe %s inch panel:" % panel.name)
    if written.startswith("refused "):
        say(written.strip())
        return
    leaves = [tuple(map(int, line.split())) for line in written.splitlines()]
    if any(len(leaf) != 4 for leaf in leaves):
        raise Unexpected(written)
    path = "%s/layout-%s.png" % (FOLDER, panel.name)
    with open(path, "wb") as file:
        file.write(picture.png([outlines(panel, leaves)], -1))
    say(board_text(borders(panel, leaves), ["x %3d  y %3d  width %3d  height %3d" % leaf for leaf in leaves]))
    say(path)


def outlines(panel, leaves):
    """Each dot of a panel: -1, which is black, on a leaf's edge, and 0 within it."""
    dots = [[0] * panel.width for _ in range(panel.height)]
    for x, y, width, height in leaves:
        for row in (y, y + height - 1):
            dots[row][x:x + width] = [-1] * width
        for row in range(y, y + height):
            dots[row][x] = dots[row][x + width - 1] = -1
    return dots


def borders(panel, leaves):
    """A picture for block characters: the quarters of blocks in which a leaf's left or upper edge lies are black. The edges of the
    panel are left to the frame around it."""
    black = set()
    for x, y, width, height in leaves:
        if x > 0:
            black |= {(x // picture.ACROSS, row // picture.DOWN) for row in range(y, y + height)}
        if y > 0:
            black |= {(dot // picture.ACROSS, y // picture.DOWN) for dot in range(x, x + width)}
    return [row_bytes([(dot // picture.ACROSS, row // picture.DOWN) in black for dot in range(panel.width)])
            for row in range(panel.height)]


def row_bytes(row):
    """A row of dots, each black or not, as a panel has it: eight to a byte, the first in bit 7, a 1 is white."""
    return bytes(sum((not dot) << 7 - bit for bit, dot in enumerate(row[at:at + 8])) for at in range(0, len(row), 8))


if __name__ == "__main__":
    try:
        main()
    except OutputClosed:
        discard_output()
    except (Unexpected, OSError, subprocess.CalledProcessError) as trouble:
        sys.exit("The layout was not drawn: %s." % trouble)
