"""Mistakes on the wire: lines that the proved driver hands out, changed as a trainee's line builder would have them."""
from collections import namedtuple

from ghosting import bibs, model
from simulator.panel import Glass

EVEN = bibs.PANEL.width // 8
SCAN = bibs.PANEL.height // 4
ODD_AT = 3 + EVEN + SCAN


def turned_round(byte):
    """A wire byte with its four dots in the other order."""
    return (byte & 3) << 6 | (byte & 12) << 2 | byte >> 2 & 12 | byte >> 6


class NoMistake:
    def change(self, line):
        return line


class ReadingOrder:
    """Odd byte k carries the odd dots from 8k + 1 on, in reading order."""

    def change(self, line):
        odd = bytes(turned_round(byte) for byte in reversed(line[ODD_AT:ODD_AT + EVEN]))
        return line[:ODD_AT] + odd + line[ODD_AT + EVEN:]


class ReadingOrderInBytes:
    """The odd bytes come in the right order, but each has its own four dots in reading order."""

    def change(self, line):
        odd = bytes(turned_round(byte) for byte in line[ODD_AT:ODD_AT + EVEN])
        return line[:ODD_AT] + odd + line[ODD_AT + EVEN:]


class NeverCleared:
    """Each line sets its own scan byte, and none is ever cleared."""

    def __init__(self):
        self.scan = bytearray(SCAN)

    def change(self, line):
        for i, byte in enumerate(line[3 + EVEN:ODD_AT]):
            self.scan[i] = byte or self.scan[i]
        return line[:3 + EVEN] + bytes(self.scan) + line[ODD_AT:]


class ClearedLate:
    """Each line sets its own scan byte; the one of the line before is cleared a line too late."""

    def __init__(self):
        self.before = bytes(SCAN)

    def change(self, line):
        own = line[3 + EVEN:ODD_AT]
        scan = bytes(mine or old for mine, old in zip(own, self.before))
        self.before = own
        return line[:3 + EVEN] + scan + line[ODD_AT:]


# sums: of every dot; wrong: how many dots at rest have another sum than the rules say; lowest, highest: of any dot at any moment
Drawn = namedtuple("Drawn", "sums wrong lowest highest")


def drawn(lines, mistake, bib):
    """The glass after some lines that end with a bib's picture."""
    glass = Glass(bibs.PANEL)
    for line in lines:
        glass.send(mistake.change(line))
    right = bibs.dot_rows(model.at_rest(bib))
    wrong = sum(a != b for found, wanted in zip(glass.sums, right) for a, b in zip(found, wanted))
    return Drawn(glass.sums, wrong, glass.lowest, glass.highest)
