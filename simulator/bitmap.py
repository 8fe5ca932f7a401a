"""Bitmap files of a panel's pictures: a header of 62 bytes, then the rows, bottom row first, each filled up to a multiple of
four bytes. A picture is a list of rows of bytes, top row first."""
import struct

HEADER = struct.Struct("<2sIIIIIIHHIIIIII8s")
PALETTE = bytes.fromhex("00000000FFFFFF00")  # black, then white


def stride(panel):
    """The bytes from one row of a file to the next."""
    return (panel.width // 8 + 3) // 4 * 4


def write(panel, rows):
    """The file of a picture."""
    size = panel.height * stride(panel)
    header = HEADER.pack(b"BM", HEADER.size + size, 0, HEADER.size, 40, panel.width, panel.height, 1, 1, 0, size, 0, 0, 0, 0, PALETTE)
    return header + b"".join(row.ljust(stride(panel), b"\0") for row in reversed(rows))


def read(panel, file):
    """The picture of a file that the driver wrote."""
    starts = range(HEADER.size, len(file), stride(panel))
    return [file[at:at + panel.width // 8] for at in reversed(starts)]
