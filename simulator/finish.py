"""A simulated finish arch panel that knows nothing but the writes it is sent."""


class Unready(Exception):
    """The panel was asked for what it cannot do yet."""


class FinishGlass:
    """The dots of a 5.81 or 7.41 inch panel, packed as the picture's bytes; a 1 is black.

    An update command drives every dot to the first frame where the last index written is one of normal mode, and where it is one of
    fast mode (0x80 and above) only the dots in which the two frames differ: the others stay as they are on the glass."""

    def __init__(self, size):
        self.shown = bytes(size)
        self.frames = [None, None]
        self.sensor, self.index = None, None
        self.powered = False
        self.updates = 0

    def send(self, written):
        """Takes one write: the register's byte, then its data."""
        register, data = written[0], written[1:]
        if register in (0x10, 0x11):
            self.frames[register - 0x10] = data
        elif register == 0x44:
            self.sensor = data
        elif register == 0x45 and self.sensor == b"\x06":
            self.index = data[0]
        elif register == 0x51:
            self.powered = True
        elif register == 0x15 and data == b"\x3C":
            self.update()
        elif register == 0x09 and data == b"\x00":
            self.powered = False

    def update(self):
        new, second = self.frames
        if not self.powered or self.index is None or not new or not second or not len(new) == len(second) == len(self.shown):
            raise Unready("an update command came before the frames, the temperature or the soft start")
        keep = [a ^ b ^ 0xFF for a, b in zip(new, second)] if self.index >= 0x80 else bytes(len(new))
        self.shown = bytes(old & k | dot & ~k & 0xFF for old, dot, k in zip(self.shown, new, keep))
        self.frames, self.index, self.sensor = [None, None], None, None
        self.updates += 1
