"""A second, plain reader and writer of the panels' bitmap files, written from the rules.

By hand: python3 -m tests.bitmaps.reference < FILE.bmp > NORMAL.bmp
"""
import itertools
import sys

from tests.panels import PANELS

REFUSED = b"refused 4\n"
HEADER = 62
BLACK, WHITE = b"\x00\x00\x00", b"\xFF\xFF\xFF"
PALETTE = BLACK + b"\x00" + WHITE + b"\x00"


def dots_of(colours):
    """What each byte of a row becomes: a bit is the index of one of the two colours, and a white dot is 1."""
    return bytes(sum((colours[byte >> i & 1] == WHITE) << i for i in range(8)) for byte in range(256))


DOTS = {colours: dots_of(colours) for colours in ((BLACK, WHITE), (WHITE, BLACK))}


def file_length(panel):
    return HEADER + panel.height * panel.stride


def panel_of(length):
    """The panel whose files have this length, or None."""
    for panel in PANELS:
        if file_length(panel) == length:
            return panel
    return None


def number(file, at, n):
    return int.from_bytes(file[at:at + n], "little")


def good(panel, file):
    """Whether a file keeps every rule."""
    width, height, stride = panel.width, panel.height, panel.stride
    if len(file) != file_length(panel):
        return False
    if file[0:2] != b"BM":
        return False
    wanted = [(2, 4, len(file)), (6, 4, 0), (10, 4, 62), (14, 4, 40), (18, 4, width), (22, 4, height),
              (26, 2, 1), (28, 2, 1), (30, 4, 0)]
    for at, n, value in wanted:
        if number(file, at, n) != value:
            return False
    if number(file, 34, 4) not in (0, height * stride):
        return False
    if number(file, 46, 4) not in (0, 2):
        return False
    return colours_of(file) in DOTS


def colours_of(file):
    """The palette's two colours; the fourth byte of an entry is free."""
    return file[54:57], file[58:61]


def read(panel, file):
    """The picture: rows from the top, each X/8 bytes, a 1 is white. None if a rule is broken."""
    if not good(panel, file):
        return None
    dots = DOTS[colours_of(file)]
    rows = []
    for row in range(panel.height):
        at = HEADER + (panel.height - 1 - row) * panel.stride  # the bottom row comes first
        rows.append(file[at:at + panel.width // 8].translate(dots))
    return rows


def write(panel, rows):
    """The normal form of a picture's file."""
    width, height, stride = panel.width, panel.height, panel.stride
    length = file_length(panel)
    header = b"BM"
    for n, value in [(4, length), (4, 0), (4, 62), (4, 40), (4, width), (4, height), (2, 1), (2, 1), (4, 0),
                     (4, height * stride), (4, 0), (4, 0), (4, 0), (4, 0)]:
        header += value.to_bytes(n, "little")
    header += PALETTE
    body = b"".join(row + bytes(stride - len(row)) for row in reversed(rows))
    return header + body


def every_choice(panel):
    """A good file for each choice that the rules leave: at 34, at 46, and which colour is first."""
    file = write(panel, [bytes(panel.width // 8)] * panel.height)
    for size, count, (first, second) in itertools.product((0, panel.height * panel.stride), (0, 2), DOTS):
        yield (file[:34] + size.to_bytes(4, "little") + file[38:46] + count.to_bytes(4, "little") + file[50:54]
               + first + file[57:58] + second + file[61:])


CHOICES = {panel: tuple(every_choice(panel)) for panel in PANELS}


def begins(panel, start):
    """Whether some rest makes these bytes a good file. What may be anything can stay as it came, so if there is such a rest at all,
    the end of a file that has made the same choices is one."""
    return any(good(panel, start + file[len(start):]) for file in CHOICES[panel])


def normal(file):
    """What the program writes for this input."""
    panel = panel_of(len(file))
    rows = None if panel is None else read(panel, file)
    return REFUSED if rows is None else write(panel, rows)


if __name__ == "__main__":
    sys.stdout.buffer.write(normal(sys.stdin.buffer.read()))
