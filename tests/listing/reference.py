"""A second, plain implementation of the settings listing, written from the rules.

By hand: python3 -m tests.listing.reference < FILE
"""
import sys

from tests.panels import PANELS

REFUSED = b"refused 2\n"

DATA_LENGTH = {1: 8, 2: 1, 3: 1, 4: 1, 5: 1, 6: 1, 7: 1, 8: 1, 9: 2}


class Refused(Exception):
    """The file breaks a rule."""


class Reader:
    def __init__(self, file):
        self.file = file
        self.at = 0

    def take(self, n):
        if self.at + n > len(self.file):
            raise Refused
        piece = self.file[self.at:self.at + n]
        self.at += n
        return piece

    def byte(self):
        return self.take(1)[0]


def read_steps(reader, count, panel):
    """The steps as pairs: ("write", register and data) or ("wait", ms)."""
    steps = []
    for _ in range(count):
        kind = reader.byte()
        if kind == 0x57:
            register = reader.byte()
            if register not in DATA_LENGTH:
                raise Refused
            data = reader.take(DATA_LENGTH[register])
            if register == 0x01 and data != panel.channels:
                raise Refused
            if register == 0x04 and data != panel.level:
                raise Refused
            steps.append(("write", bytes([register]) + data))
        elif kind == 0x44:
            ms = int.from_bytes(reader.take(2), "big")
            if not 1 <= ms <= 1000:
                raise Refused
            steps.append(("wait", ms))
        else:
            raise Refused
    return steps


def read_settings(file):
    """The panel, the start steps and the stop steps."""
    reader = Reader(file)
    if reader.byte() != 1:
        raise Refused
    code = reader.byte()
    if code >= len(PANELS):
        raise Refused
    panel = PANELS[code]

    start_count = reader.byte()
    if not 2 <= start_count <= 32:
        raise Refused
    start = read_steps(reader, start_count, panel)
    written = {step[1][0] for step in start if step[0] == "write"}
    if 0x01 not in written or 0x04 not in written:
        raise Refused

    stop_count = reader.byte()
    if stop_count > 32:
        raise Refused
    stop = read_steps(reader, stop_count, panel)

    if reader.at != len(file):
        raise Refused
    return panel, start, stop


def listing(file):
    """What the program writes for this input."""
    try:
        panel, start, stop = read_settings(file)
    except Refused:
        return REFUSED
    lines = ["panel " + panel.name]
    for name, steps in (("start", start), ("stop", stop)):
        lines.append(f"{name} {len(steps)}")
        for kind, value in steps:
            if kind == "write":
                lines.append("write " + " ".join(f"{byte:02X}" for byte in value))
            else:
                lines.append(f"wait {value}")
    return "".join(line + "\n" for line in lines).encode("ascii")


if __name__ == "__main__":
    sys.stdout.buffer.write(listing(sys.stdin.buffer.read()))
