"""The three panels as docs/REQUIREMENTS.md gives them, for the implementations written a second time. The simulations have a
table of their own, simulator/panel.py."""
from collections import namedtuple

# width and height in dots, frames a stage, the bytes from one row of a bitmap file to the next, data of registers 0x01 and 0x04
Panel = namedtuple("Panel", "code name width height frames stride channels level")

PANELS = (
    Panel(0, "1.44", 128, 96, 16, 16, bytes.fromhex("00000000000FFF00"), bytes.fromhex("03")),
    Panel(1, "2", 200, 96, 16, 28, bytes.fromhex("0000000001FFE000"), bytes.fromhex("03")),
    Panel(2, "2.7", 264, 176, 21, 36, bytes.fromhex("0000007FFFFE0000"), bytes.fromhex("00")),
)
