"""Pictures for people: block characters for a terminal, and PNG files."""
import struct
import zlib

from demo.digits import bits

# by the quarters of the character that are black: 1 upper left, 2 upper right, 4 lower left, 8 lower right
BLOCKS = " ▘▝▀▖▌▞▛▗▚▐▜▄▙▟█"
ACROSS, DOWN = 2, 4  # the dots of a quarter

PAPER, INK, AROUND = 0xF4, 0x18, 0x8C  # greys of a PNG file
DOT = 3                                # a dot's side in a PNG file
RIM = 24                               # the width of the rim around a board in a PNG file


def blocks(picture):
    """A picture as lines of text. A quarter of a character is black where at least half of its dots are."""
    rows = [bits(row) for row in picture]

    def black(x, y):
        return 2 * sum(row.count("0", x, x + ACROSS) for row in rows[y:y + DOWN]) >= ACROSS * DOWN

    def block(x, y):
        return BLOCKS[black(x, y) + 2 * black(x + ACROSS, y) + 4 * black(x, y + DOWN) + 8 * black(x + ACROSS, y + DOWN)]

    return ["".join(block(x, y) for x in range(0, len(rows[0]), 2 * ACROSS)) for y in range(0, len(rows), 2 * DOWN)]


def png(boards, lowest):
    """A PNG file of boards side by side. A board is given as its dots' sums: 0 is white, `lowest` is black."""
    greys = bytes(PAPER + (INK - PAPER) * down // -lowest for down in range(1 - lowest))
    rim = bytes([AROUND]) * RIM
    lines = []
    for rows in zip(*boards):
        line = rim + b"".join(enlarged(sums, greys) + rim for sums in rows)
        lines += [line] * DOT
    width = len(lines[0])
    edge = [bytes([AROUND]) * width] * RIM
    lines = edge + lines + edge
    header = struct.pack(">IIBBBBB", width, len(lines), 8, 0, 0, 0, 0)  # 8 bits of grey
    body = zlib.compress(b"".join(b"\0" + line for line in lines), 9)
    return b"\x89PNG\r\n\x1a\n" + chunk(b"IHDR", header) + chunk(b"IDAT", body) + chunk(b"IEND", b"")


def enlarged(sums, greys):
    return bytes(greys[-total] for total in sums for _ in range(DOT))


def chunk(kind, data):
    return struct.pack(">I", len(data)) + kind + data + struct.pack(">I", zlib.crc32(kind + data))
