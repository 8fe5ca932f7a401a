"""The three panels, for every simulation; and a simulated one that knows nothing but the bytes it is sent."""
from collections import namedtuple

# width and height in dots, frames per stage, data of registers 0x01 and 0x04
Panel = namedtuple("Panel", "code name width height frames channels level")

PANELS = (
    Panel(0, "1.44", 128, 96, 16, bytes.fromhex("00000000000FFF00"), bytes.fromhex("03")),
    Panel(1, "2", 200, 96, 16, bytes.fromhex("0000000001FFE000"), bytes.fromhex("03")),
    Panel(2, "2.7", 264, 176, 21, bytes.fromhex("0000007FFFFE0000"), bytes.fromhex("00")),
)

LINE_BEGINS = bytes.fromhex("700A72")
PUSH = {0b10: 1, 0b11: -1, 0b00: 0, 0b01: 0}  # the last is no dot code, and pushes nothing

# the pushes of the four dots of a wire byte, high pair first
PUSHES = [tuple(PUSH[byte >> shift & 3] for shift in (6, 4, 2, 0)) for byte in range(256)]


class Glass:
    """A panel's dots. Each keeps the sum of its pushes: a push to white counts +1, a push to black -1."""

    def __init__(self, panel):
        self.panel = panel
        self.sums = [[0] * panel.width for _ in range(panel.height)]
        self.lowest = self.highest = 0
        self.lines = 0
        self.known = {}  # the pushes of a row's wire bytes

    def send(self, handed):
        """Takes what a poll handed out. Only a line pushes dots."""
        if handed[:3] != LINE_BEGINS:
            return
        self.lines += 1
        end = 3 + self.panel.width // 8
        even, rest = handed[3:end], handed[end:]
        scan = rest[:self.panel.height // 4]
        odd = rest[len(scan):len(scan) + len(even)]
        pushes = self.pushes(even, odd)
        for y in self.rows(scan):
            sums = [a + b for a, b in zip(self.sums[y], pushes)]
            self.sums[y] = sums
            self.lowest = min(self.lowest, min(sums))
            self.highest = max(self.highest, max(sums))

    def pushes(self, even, odd):
        """The push of each dot of a row, from its even and odd wire bytes."""
        key = even + odd
        found = self.known.get(key)
        if found is None:
            found = [0] * self.panel.width
            found[0::2] = [push for byte in even for push in PUSHES[byte]]
            found[1::2] = [push for byte in odd for push in PUSHES[byte]][::-1]  # the last odd dot comes first
            if len(self.known) > 50000:
                self.known.clear()
            self.known[key] = found
        return found

    @staticmethod
    def rows(scan):
        """The rows that the scan bytes name: a row is pushed where its own two bits are 11."""
        return [4 * i + k for i, byte in enumerate(scan) if byte for k in range(4) if byte >> (6 - 2 * k) & 3 == 3]

    def picture(self):
        """What the glass shows at rest: its rows as bytes, bit 7 of a row's first byte is dot 0, and a 1 is white."""
        def row(sums):
            bits = "".join("1" if total == 0 else "0" for total in sums)
            return int(bits, 2).to_bytes(self.panel.width // 8, "big")
        return [row(sums) for sums in self.sums]
