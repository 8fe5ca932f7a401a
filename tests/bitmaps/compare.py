"""Compares the program that writes a bitmap in its normal form with reference.py.

Usage, from the repository's root: python3 -m tests.bitmaps.compare target/bin/bitmap_normal
"""
import pathlib
import random
import sys

from tests.bitmaps.reference import HEADER, REFUSED, file_length, normal, write
from tests.panels import PANELS
from tests.program import Comparison, path_argument

HERE = pathlib.Path(__file__).resolve().parent
MEGABYTE = 1 << 20
KEPT = {"1.44": "panel_1_44", "2": "panel_2_0", "2.7": "panel_2_7"}
TOOLS = ("pillow", "netpbm", "pillow-white", "netpbm-white", "imagemagick-white")  # the last three put white first
BLACK, WHITE = 0x000000, 0xFFFFFF


def picture_of_pbm(file):
    """The rows of a raw PBM file as the panels want them: PBM's 1 is black, ours is white."""
    magic, size, body = file.split(b"\n", 2)
    width, height = (int(word) for word in size.split())
    if magic != b"P4" or width % 8 != 0 or len(body) != width // 8 * height:
        sys.exit("a kept PBM file has another form")
    row_bytes = width // 8
    return (width, height), [bytes(255 - byte for byte in body[row * row_bytes:(row + 1) * row_bytes])
                             for row in range(height)]


def put(file, at, value, n=4):
    return file[:at] + (value % 256 ** n).to_bytes(n, "little") + file[at + n:]


def with_palette(file, first, second):
    """The fourth byte of each entry stays."""
    return put(put(file, 54, first, 3), 58, second, 3)


def good_file(panel, rng):
    """A good file: everything is random that may be, or as often what real tools put there."""
    width, height, stride = panel.width, panel.height, panel.stride
    length = file_length(panel)
    file = rng.randbytes(length)
    file = b"BM" + file[2:]
    for at, n, value in [(2, 4, length), (6, 4, 0), (10, 4, 62), (14, 4, 40), (18, 4, width), (22, 4, height),
                         (26, 2, 1), (28, 2, 1), (30, 4, 0), (34, 4, rng.choice([0, height * stride])),
                         (46, 4, rng.choice([0, 2]))]:
        file = put(file, at, value, n)
    usual = rng.choice([None, None, (0, 0, 0, 0, 0), (3780, 3780, 2, 0, 0), (3780, 3780, 2, 0, 0xFF000000)])
    for at, value in zip((38, 42, 50, 54, 58), usual or ()):
        file = put(file, at, value)
    return with_palette(file, *rng.choice([(BLACK, WHITE), (WHITE, BLACK)]))


def broken_sizes(panel, file):
    """Files that break a rule of the fields up to the height, by what is wrong with them."""
    width, height, stride = panel.width, panel.height, panel.stride
    length, body = file_length(panel), height * stride
    return {
        "BM as MB": put(file, 0, 0x424D, 2),
        "bm": put(file, 0, 0x6D62, 2),
        "BA": put(file, 1, 0x41, 1),
        "length 0": put(file, 2, 0),
        "length + 1": put(file, 2, length + 1),
        "length - 1": put(file, 2, length - 1),
        "length of the body": put(file, 2, body),
        "length + 65536": put(file, 2, length + 65536),
        "length, high byte first": put(file, 2, int.from_bytes(length.to_bytes(4, "big"), "little")),
        "reserved 1": put(file, 6, 1),
        "reserved 65536": put(file, 6, 65536),
        "reserved, top byte set": put(file, 9, 1, 1),
        "offset 0": put(file, 10, 0),
        "offset 54": put(file, 10, 54),
        "offset 64": put(file, 10, 64),
        "offset 62 + 65536": put(file, 10, 62 + 65536),
        "header 12": put(file, 14, 12),
        "header 108": put(file, 14, 108),
        "header 124": put(file, 14, 124),
        "width + 1": put(file, 18, width + 1),
        "width - 1": put(file, 18, width - 1),
        "width negative": put(file, 18, -width),
        "width + 65536": put(file, 18, width + 65536),
        "width and height exchanged": put(put(file, 18, height), 22, width),
        "height + 1": put(file, 22, height + 1),
        "height - 1": put(file, 22, height - 1),
        "height negative, top row first": put(file, 22, -height),
    }


def broken_forms(panel, file):
    """Files that break a rule of the fields after the height."""
    width, height, stride = panel.width, panel.height, panel.stride
    length, body = file_length(panel), height * stride
    broken = {
        "planes 0": put(file, 26, 0, 2),
        "planes 2": put(file, 26, 2, 2),
        "planes 257": put(file, 26, 257, 2),
        "0 bits": put(file, 28, 0, 2),
        "4 bits": put(file, 28, 4, 2),
        "8 bits": put(file, 28, 8, 2),
        "compression 1": put(file, 30, 1),
        "compression 3": put(file, 30, 3),
        "compression, top byte set": put(file, 33, 1, 1),
        "size 1": put(file, 34, 1),
        "size + 1": put(file, 34, body + 1),
        "size - 1": put(file, 34, body - 1),
        "size of the file": put(file, 34, length),
        "size, top byte set": put(put(file, 34, body), 37, 1, 1),
        "colours 1": put(file, 46, 1),
        "colours 3": put(file, 46, 3),
        "colours 256": put(file, 46, 256),
        "colours 512": put(file, 46, 512),
        "colours 2 + 65536": put(file, 46, 2 + 65536),
        "palette black and black": with_palette(file, BLACK, BLACK),
        "palette white and white": with_palette(file, WHITE, WHITE),
        "palette black and nearly white": with_palette(file, BLACK, 0xFEFFFF),
        "palette nearly black and white": with_palette(file, 0x010000, WHITE),
        "palette white and grey": with_palette(file, WHITE, 0x808080),
        "palette red and blue": with_palette(file, 0xFF0000, 0x0000FF),
        "palette of entries of three bytes": file[:54] + bytes.fromhex("000000 FFFFFF 0000") + file[62:],
        "palette one byte late": file[:54] + bytes.fromhex("01 000000 00 FFFFFF") + file[62:],
    }
    if stride * 8 != width:
        broken["width with the padding"] = put(file, 18, 8 * stride)
        broken["size without the padding"] = put(file, 34, width // 8 * height)
    return broken


def free_fields(panel, file):
    """Good files whose free fields hold what real tools or nobody puts there."""
    body = panel.height * panel.stride
    return {
        "size 0": put(file, 34, 0),
        "size of the body": put(file, 34, body),
        "dots per metre all ones": put(put(file, 38, -1), 42, -1),
        "colours 0": put(file, 46, 0),
        "colours 2": put(file, 46, 2),
        "important colours all ones": put(file, 50, -1),
        "palette black first": put(put(file, 54, 0x00000000), 58, 0x00FFFFFF),
        "palette black first, fourth bytes all ones": put(put(file, 54, 0xFF000000), 58, 0xFFFFFFFF),
        "palette white first": put(put(file, 54, 0x00FFFFFF), 58, 0x00000000),
        "palette white first, fourth bytes all ones": put(put(file, 54, 0xFFFFFFFF), 58, 0xFF000000),
    }


class BitmapTest(Comparison):
    def __init__(self, path):
        super().__init__(path)
        self.rng = random.Random(17)

    def compare(self, name, file, by="pipe"):
        """Compares, and where the file is taken compares once more with the output as input."""
        expected = normal(file)
        output = self.check(name, file, expected, by)
        if expected != REFUSED and output == expected:
            self.check(name + ", a second time", output, expected)

    def taken(self, name, file, by="pipe"):
        if normal(file) == REFUSED:
            self.fail(f"the reference refuses: {name}")
        self.compare(name, file, by)

    def refused_file(self, name, file, by="pipe"):
        if normal(file) != REFUSED:
            self.fail(f"the reference takes: {name}")
        self.compare(name, file, by)

    def kept_files(self):
        """Files of real tools: the expected file comes from the source picture alone."""
        for panel in PANELS:
            name = KEPT[panel.name]
            size, picture = picture_of_pbm((HERE / f"{name}.pbm").read_bytes())
            if size != (panel.width, panel.height):
                self.fail(f"{name}.pbm has another size")
            expected = write(panel, picture)
            for tool in TOOLS:
                file = (HERE / f"{name}.{tool}.bmp").read_bytes()
                for by in ("pipe", "file", 61, 1000):
                    output = self.check(f"{name}.{tool}.bmp, by {by}", file, expected, by)
                    self.check(f"{name}.{tool}.bmp, a second time", output, expected)

    def good_files(self, panel):
        """Random free fields, padding and order of the palette; all white, all black; a picture and its negative."""
        for i in range(20):
            self.taken(f"good file {i}, panel {panel.name}", good_file(panel, self.rng))
        row_bytes = panel.width // 8
        self.taken(f"white, panel {panel.name}", write(panel, [b"\xFF" * row_bytes] * panel.height))
        self.taken(f"black, panel {panel.name}", write(panel, [bytes(row_bytes)] * panel.height))
        file = write(panel, [self.rng.randbytes(row_bytes) for _ in range(panel.height)])
        negative = with_palette(file, WHITE, BLACK)[:HEADER] + bytes(255 - byte for byte in file[HEADER:])
        self.check(f"the negative with white first, panel {panel.name}", negative, file)

    def palettes(self, panel):
        """Every value of each byte of the palette, in both orders."""
        for first, second in ((BLACK, WHITE), (WHITE, BLACK)):
            file = with_palette(good_file(panel, self.rng), first, second)
            for at in range(54, HEADER):
                for value in range(256):
                    self.check(f"{value} at {at}, panel {panel.name}", put(file, at, value, 1), normal(put(file, at, value, 1)))

    def fields(self, panel):
        """One rule after another broken, free fields that may hold anything, and each header byte damaged."""
        file = good_file(panel, self.rng)
        self.taken(f"before the damage, panel {panel.name}", file)
        for name, bad in {**broken_sizes(panel, file), **broken_forms(panel, file)}.items():
            self.refused_file(f"{name}, panel {panel.name}", bad)
        for name, good in free_fields(panel, file).items():
            self.taken(f"{name}, panel {panel.name}", good)
        for at in range(HEADER):
            file = good_file(panel, self.rng)
            damaged = put(file, at, file[at] ^ self.rng.randint(1, 255), 1)
            self.compare(f"header byte {at} damaged, panel {panel.name}", damaged)

    def lengths(self, panel):
        """The length finds the panel, and the header must fit it."""
        length, stride = file_length(panel), panel.stride
        file = good_file(panel, self.rng)
        for other in PANELS:
            if other != panel:
                other_length = file_length(other)
                changed = file[:other_length].ljust(other_length, b"\0")
                self.refused_file(f"panel {panel.name} at the length of {other.name}", changed)
                self.refused_file(f"panel {panel.name} at the length of {other.name}, noted", put(changed, 2, other_length))
        for wrong in (1, 2, 30, 53, 54, 61, 62, 63, HEADER + stride, length - stride, length - 14, length - 2, length - 1,
                      length + 1, length + 2, length + 4, 8191, 8192, 65536, 65536 + length):
            changed = file[:wrong].ljust(wrong, b"\0")
            self.refused_file(f"panel {panel.name} with {wrong} bytes", changed)
            if wrong >= 6:
                self.refused_file(f"panel {panel.name} with {wrong} bytes, noted", put(changed, 2, wrong))

    def others(self, panel):
        """Long inputs, and inputs that are no bitmaps."""
        file = good_file(panel, self.rng)
        self.refused_file(f"a megabyte, panel {panel.name}", file.ljust(MEGABYTE, b"\0"))
        self.refused_file(f"a megabyte, panel {panel.name}, noted", put(file.ljust(MEGABYTE, b"\0"), 2, MEGABYTE))
        self.refused_file(f"a megabyte, panel {panel.name}, as a file", file.ljust(MEGABYTE, b"\0"), "file")
        self.refused_file(f"a file twice, panel {panel.name}", file + file)
        self.refused_file(f"zeros, panel {panel.name}", bytes(len(file)))
        self.refused_file(f"random bytes, panel {panel.name}", self.rng.randbytes(len(file)))
        self.refused_file(f"the source picture of {panel.name}", (HERE / f"{KEPT[panel.name]}.pbm").read_bytes())


def main():
    test = BitmapTest(path_argument("tests.bitmaps.compare"))
    test.kept_files()
    for panel in PANELS:
        test.good_files(panel)
        test.fields(panel)
        test.lengths(panel)
        test.others(panel)
    test.palettes(PANELS[0])
    test.refused_file("no input", b"")
    test.refused_file("no input, as a file", b"", "file")
    test.refused_file("a megabyte in pieces", good_file(PANELS[2], test.rng).ljust(MEGABYTE, b"\0"), 10007)
    test.refused_file("a megabyte of random bytes", test.rng.randbytes(MEGABYTE))
    sys.exit(test.summary("bitmap_normal", 300))


if __name__ == "__main__":
    main()
