"""Compares the program that lists a layout's leaves with reference.py, and counts the dots of every layout that it gives.

Usage, from the repository's root: python3 -m tests.layout.compare target/bin/layout_list
"""
import random
import sys
from collections import Counter

from tests.layout import lists
from tests.layout.reference import PANELS, text
from tests.program import Comparison, path_argument

LEAST = 50_000

# Worked by hand. Two columns with an edge at a third of 264, the right one cut in half. Three columns of 128 with edges at 42.67 and
# 85.33, the middle one cut in five at 19.2, 38.4, 57.6 and 76.8 of 96.
EXAMPLES = (
    ("02 05 02 01 02 01 02 00 02 01 01 03 04 00 00", b"0 0 88 176\n88 0 176 88\n88 88 176 88\n"),
    ("00 09 03 01 01 01 01 02 03 00 05 01 01 01 01 01 04 05 06 07 08 00 00 00 00 00 00",
     b"0 0 42 96\n85 0 43 96\n42 0 43 19\n42 19 43 19\n42 38 43 19\n42 57 43 19\n42 76 43 20\n"),
)


def once_each(panel, leaves):
    """Every dot of the panel lies in exactly one leaf, and no leaf outside. A row of dots is a number, a bit a dot."""
    width, height = PANELS[panel]
    rows = [0] * height
    for x, y, w, h in leaves:
        if w < 1 or h < 1 or x + w > width or y + h > height:
            return False
        dots = (1 << w) - 1 << x
        for row in range(y, y + h):
            if rows[row] & dots:
                return False
            rows[row] |= dots
    return all(row == (1 << width) - 1 for row in rows)


class Layouts:
    """The comparison, with what was given so far."""

    def __init__(self, path):
        self.comparison = Comparison(path)
        self.rng = random.Random(13)
        self.numbers = Counter()
        self.longest = 0

    def check(self, what, data):
        """Compares one input, and answers the number that it is to get."""
        expected = text(data)
        output = self.comparison.check(what, data, expected, self.rng.choice(["pipe"] * 19 + ["file"]))
        if expected.startswith(b"refused"):
            number = int(expected.split()[1])
        else:
            number = 0
            self.longest = max(self.longest, len(data) - 1)
            if not once_each(data[0], [tuple(map(int, line.split())) for line in output.splitlines()]):
                self.comparison.fail(f"a dot that lies in no leaf or in two: {data.hex(' ')}")
        self.numbers[number] += 1
        return number

    def must(self, number, what, data):
        if self.check(what, data) != number:
            self.comparison.fail(f"reference.py gives another number than {number} to {what}: {data.hex(' ')}")

    def panel(self):
        return bytes([self.rng.randrange(3)])

    def examples(self):
        for data, expected in EXAMPLES:
            self.comparison.check("an example", bytes.fromhex(data), expected)
            if text(bytes.fromhex(data)) != expected:
                self.comparison.fail("reference.py differs from an example")

    def good(self):
        """Every shape; and from some of them lists with one rule broken, and cut at every length."""
        for turn, tree in enumerate(lists.trees(self.rng, 6)):
            panel, data = self.panel(), lists.listed(tree)
            self.check("a tree", panel + data)
            if turn % 11 == 0:
                for what, wrong in lists.broken(self.rng, tree):
                    self.must(29, what, panel + wrong)
            if turn % 331 == 0:
                for length in range(len(data)):
                    self.must(29, "a list that is cut", panel + data[:length])
                self.must(29, "a long list", panel + data + self.rng.randbytes(self.rng.choice([1, 200, 70_000])))

    def limits(self):
        for panel in PANELS:
            for what, data in lists.too_large():
                self.must(30 if what == "a chain" else 29, what, bytes([panel]) + data)
            for length in range(1, 7):
                self.must(0, "a chain", bytes([panel]) + lists.listed(lists.chain(length)))
        for code in range(3, 256):
            self.must(14, "no panel", bytes([code]) + lists.listed(lists.chain(1)))
            self.must(14, "no panel and no list", bytes([code]) + self.rng.randbytes(self.rng.randrange(20)))
        self.must(14, "no input", b"")

    def order(self):
        """29 before 30 before 31: a chain of seven with a child of no width in it, then with its list broken."""
        for panel in PANELS:
            flat = [([1] + [100] * 7, list(range(1, 9)))] + [([], [])] * 8
            self.must(31, "no width", bytes([panel]) + lists.listed(flat))
            deep = [([1] + [100] * 7, list(range(1, 9)))] + [([1], [9])] + [([], [])] * 7
            deep += [([1], [number]) for number in range(10, 14)] + [([], [])]
            self.must(30, "no width, too deep", bytes([panel]) + lists.listed(deep))
            self.must(29, "no width, too deep, broken", bytes([panel]) + lists.listed(deep) + b"\x00")
            self.must(14, "no panel, no width, too deep, broken", bytes([panel + 3]) + lists.listed(deep) + b"\x00")

    def random(self):
        for data in lists.no_lists(self.rng, 12_000):
            self.check("random bytes", self.panel() + data)

    def summary(self):
        print("numbers given:", ", ".join(f"{n} {self.numbers[n]} times" for n in sorted(self.numbers)),
              "- longest good list:", self.longest)
        for number in (0, 14, 29, 30, 31):
            if self.numbers[number] < 100:
                self.comparison.fail(f"{number} was given fewer than 100 times")
        if self.longest != 191:
            self.comparison.fail("no good list of 191 bytes was tried")
        return self.comparison.summary("layout_list", LEAST)


def main():
    layouts = Layouts(path_argument("tests.layout.compare"))
    layouts.examples()
    layouts.limits()
    layouts.order()
    layouts.good()
    layouts.random()
    return layouts.summary()


if __name__ == "__main__":
    sys.exit(main())
