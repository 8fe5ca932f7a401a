"""Compares the program that lists a settings file with reference.py.

Usage, from the repository's root: python3 -m tests.listing.compare target/bin/settings_list
"""
import pathlib
import random
import re
import sys

from tests.listing.reference import DATA_LENGTH, REFUSED, listing
from tests.panels import PANELS
from tests.program import Comparison, path_argument

LIMITS = pathlib.Path(__file__).resolve().parent.parent / "limits.inc"
MEGABYTE = 1 << 20
LONGEST_FILE = 637

# The one example whose text the rules give in full.
EXAMPLE = bytes.fromhex("01 00 02 57 01 00 00 00 00 00 0F FF 00 57 04 03 01 44 00 0F")
EXAMPLE_TEXT = b"""\
panel 1.44
start 2
write 01 00 00 00 00 00 0F FF 00
write 04 03
stop 1
wait 15
"""

# Two more, typed by hand.
OTHERS = [
    (bytes.fromhex("01 01 03 57 04 03 44 03 E8 57 01 00 00 00 00 01 FF E0 00 00"),
     b"panel 2\nstart 3\nwrite 04 03\nwait 1000\nwrite 01 00 00 00 00 01 FF E0 00\nstop 0\n"),
    (bytes.fromhex("01 02 02 57 01 00 00 00 7F FF FE 00 00 57 04 00 03 57 09 D0 0A 44 00 01 57 02 2F"),
     b"panel 2.7\nstart 2\nwrite 01 00 00 00 7F FF FE 00 00\nwrite 04 00\n"
     b"stop 3\nwrite 09 D0 0A\nwait 1\nwrite 02 2F\n"),
]


def write(panel, register, rng=None):
    if register == 0x01:
        data = panel.channels
    elif register == 0x04:
        data = panel.level
    else:
        data = rng.randbytes(DATA_LENGTH[register])
    return bytes([0x57, register]) + data


def step(panel, rng):
    if rng.random() < 0.35:
        return b"\x44" + rng.randint(1, 1000).to_bytes(2, "big")
    return write(panel, rng.randint(1, 9), rng)


def good_file(rng):
    panel = PANELS[rng.randrange(3)]
    start = [write(panel, 0x01), write(panel, 0x04)]
    start += [step(panel, rng) for _ in range(rng.choice([0, 1, 3, rng.randint(0, 30), 30]))]
    rng.shuffle(start)
    stop = [step(panel, rng) for _ in range(rng.choice([0, 1, 2, rng.randint(0, 32), 32]))]
    return (bytes([1, panel.code, len(start)]) + b"".join(start)
            + bytes([len(stop)]) + b"".join(stop))


def longest_file(panel, place=31):
    """637 bytes: 63 writes of 0x01 and one of 0x04, which is start step number place."""
    start = [write(panel, 0x01)] * 32
    start[place] = write(panel, 0x04)
    return bytes([1, panel.code, 32]) + b"".join(start) + bytes([32]) + write(panel, 0x01) * 32


def damaged(file, rng):
    at = rng.randrange(len(file))
    return file[:at] + bytes([file[at] ^ rng.randint(1, 255)]) + file[at + 1:]


def longest_listing():
    """The most bytes that the listing of a good file can have, by trying all kinds of steps.

    A table over the steps of a section keeps, for the bytes used in the file and for whether 0x01
    and 0x04 were written, the longest text so far.
    """
    kinds = [(2 + n, len("write 00\n") + 3 * n, register) for register, n in DATA_LENGTH.items()]
    kinds.append((3, len("wait 1000\n"), 0))

    def sections(most):
        table = {(0, False, False): 0}
        yield 0, table
        for count in range(1, most + 1):
            longer = {}
            for (used, has_01, has_04), text in table.items():
                for file_bytes, text_bytes, register in kinds:
                    key = (used + file_bytes, has_01 or register == 1, has_04 or register == 4)
                    longer[key] = max(longer.get(key, 0), text + text_bytes)
            table = longer
            yield count, table

    def best(name, tables, least, complete):
        """For each number of file bytes the longest text of the section, its first line included."""
        found = {}
        for count, table in tables:
            for (used, has_01, has_04), text in table.items():
                if count >= least and (not complete or (has_01 and has_04)):
                    text += len(f"{name} {count}\n")
                    found[used] = max(found.get(used, 0), text)
        return found

    start = best("start", sections(32), 2, True)
    stop = best("stop", sections(32), 0, False)
    name = max(len(f"panel {panel.name}\n") for panel in PANELS)
    return max(name + a_text + b_text for a, a_text in start.items() for b, b_text in stop.items()
               if 4 + a + b <= LONGEST_FILE)


def limit_files():
    """The table of limits.inc for each panel: name, file, whether it is good."""
    text = LIMITS.read_text(encoding="ascii")
    rows = re.findall(r'^LIMIT\((\d), "([^"]*)", "([^"]*)"\)$', text, re.MULTILINE)
    if len(rows) != text.count("\nLIMIT("):
        sys.exit("limits.inc has a line of another form")
    for number, tokens, what in rows:
        for panel in PANELS:
            yield f"{what}, panel {panel.name}", from_tokens(tokens, panel), number == "0"


def from_tokens(tokens, panel):
    other = PANELS[(panel.code + 1) % 3]
    useless = b"\x00" if panel.level == b"\x03" else b"\x03"
    letters = {
        "P": bytes([panel.code]),
        "Q": bytes([other.code]),
        "A": write(panel, 0x01),
        "a": write(other, 0x01),
        "G": write(panel, 0x04),
        "g": b"\x57\x04" + useless,
    }

    def one(token):
        return letters[token] if token in letters else bytes.fromhex(token)

    form = r"(?:\(([^)]*)\)|([0-9A-F]{2}|[PQAaGg]))(?:\*(\d+))?(?: |$)"
    if re.sub(form, "", tokens):
        sys.exit(f"limits.inc: {tokens}")
    file = b""
    for bracket, token, times in re.findall(form, tokens):
        piece = b"".join(one(t) for t in bracket.split()) if bracket else one(token)
        file += piece * int(times or 1)
    return file


class ListingTest(Comparison):
    def __init__(self, path):
        super().__init__(path)
        self.rng = random.Random(17)

    def compare(self, name, file, by="pipe"):
        return self.check(name, file, listing(file), by)

    def refused_file(self, name, file, by="pipe"):
        if listing(file) != REFUSED:
            self.fail(f"the reference takes: {name}")
        self.compare(name, file, by)

    def typed_by_hand(self):
        """Texts typed by hand, for the program and for the reference."""
        for name, file, text in [("the example", EXAMPLE, EXAMPLE_TEXT),
                                 ("typed by hand, 1", *OTHERS[0]), ("typed by hand, 2", *OTHERS[1])]:
            if listing(file) != text:
                self.fail(f"the reference lists differently: {name}")
            for by in ("pipe", "file", 1, 7):
                self.check(name, file, text, by)
        for name, file, good in limit_files():
            if (listing(file) != REFUSED) != good:
                self.fail(f"the reference answers differently: {name}")
            self.compare(name, file)

    def longest(self):
        """The longest files, and the longest listing."""
        for panel in PANELS:
            for place in (0, 1, 16, 31):
                file = longest_file(panel, place)
                if len(file) != LONGEST_FILE:
                    self.fail(f"the longest file has {len(file)} bytes")
                self.compare(f"longest file, panel {panel.name}, 0x04 at {place}", file)
        for by in ("file", 1, 100, 636):
            self.compare(f"longest file, by {by}", longest_file(PANELS[0]), by)
        text = self.compare("longest listing", longest_file(PANELS[0]))
        longest = longest_listing()
        if len(listing(longest_file(PANELS[0]))) != longest:
            self.fail(f"the longest listing has {longest} bytes, not {len(listing(longest_file(PANELS[0])))}")
        print(f"longest listing: {longest} bytes, written {len(text)} (panel 1.44, 32 start and 32 stop steps, "
              "63 writes of 0x01 and one of 0x04, a file of 637 bytes)")

    def random_files(self):
        """Good, damaged, cut and extended files."""
        for i in range(150):
            self.compare(f"good file {i}", good_file(self.rng))
        for i in range(150):
            self.compare(f"damaged file {i}", damaged(good_file(self.rng), self.rng))
        for name, file in (("example", EXAMPLE), ("file", OTHERS[1][0])):
            for at in range(len(file)):
                self.refused_file(f"{name} cut at {at}", file[:at])
        for at in self.rng.sample(range(LONGEST_FILE), 30):
            self.refused_file(f"longest file cut at {at}", longest_file(PANELS[at % 3])[:at])
        for i in range(30):
            self.refused_file(f"extended file {i}", good_file(self.rng) + self.rng.randbytes(self.rng.randint(1, 40)))

    def numbers(self):
        """Waits of one to four digits, and data bytes."""
        for ms in (1, 2, 9, 10, 11, 19, 20, 99, 100, 101, 109, 110, 200, 255, 256, 257, 500, 512, 900, 909, 990, 999, 1000):
            self.compare(f"wait {ms}", EXAMPLE[:-2] + ms.to_bytes(2, "big"))
        for ms in (0, 1001, 1024, 10000, 65535):
            self.refused_file(f"wait {ms}", EXAMPLE[:-2] + ms.to_bytes(2, "big"))
        for data in range(0, 256, 5):
            self.compare(f"data {data:02X}", EXAMPLE[:-4] + bytes([1, 0x57, 0x05, data]))

    def long_inputs(self):
        """Long inputs, and none."""
        self.refused_file("no input", b"")
        self.refused_file("no input, as a file", b"", "file")
        for length in (638, 639, 640, 641, 1023, 1024, 1025, 4095, 4096, 4097, 8192, 65535, 65536, 65536 + 637, MEGABYTE):
            self.refused_file(f"longest file and zeros, {length} bytes", longest_file(PANELS[2]).ljust(length, b"\0"))
            self.refused_file(f"example and zeros, {length} bytes", EXAMPLE.ljust(length, b"\0"))
        self.refused_file("a megabyte from a file", longest_file(PANELS[1]).ljust(MEGABYTE, b"\0"), "file")
        self.refused_file("a megabyte in pieces", longest_file(PANELS[1]).ljust(MEGABYTE, b"\0"), 10007)
        self.refused_file("a megabyte of the example", (EXAMPLE * MEGABYTE)[:MEGABYTE])
        self.refused_file("a megabyte of steps", (longest_file(PANELS[0])[:-1] + write(PANELS[0], 1) * MEGABYTE)[:MEGABYTE])
        self.refused_file("a megabyte of random bytes", self.rng.randbytes(MEGABYTE))
        self.refused_file("a megabyte of zeros", bytes(MEGABYTE))


def main():
    test = ListingTest(path_argument("tests.listing.compare"))
    test.typed_by_hand()
    test.longest()
    test.random_files()
    test.numbers()
    test.long_inputs()
    sys.exit(test.summary("settings_list", 600))


if __name__ == "__main__":
    main()
