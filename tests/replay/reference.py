"""A second, plain implementation of the store and of the replay program's script, written from the rules.

By hand: python3 -m tests.replay.reference < SCRIPT
"""
import functools
import re
import sys

from tests.bitmaps import reference as bitmaps
from tests.listing import reference as settings

MOST_MEMORY = 8 * 5808  # slots 0 to 7 of the largest panel
MOST_OUTPUT = 6398      # its bitmap file
MOST_NUMBER = 2 ** 32 - 1
MOST_PASSED = 2 ** 64 - 1
LONGEST_CALL = 16384    # bytes of a script's line, its 0A not counted
POLL_OUTPUT = 117
FRAME_MS = 30

BLACK, WHITE, NOTHING = 0b11, 0b10, 0b00
SHOWN, NEW = "shown", "new"
STAGES = {  # the picture looked at, the code where it is white, the code where it is black
    1: (SHOWN, BLACK, WHITE),
    2: (SHOWN, WHITE, NOTHING),
    3: (NEW, BLACK, NOTHING),
    4: (NEW, WHITE, BLACK),
}
SCAN_MARKS = (0xC0, 0x30, 0x0C, 0x03)
WHITE_BYTE = b"\xFF"
BLACK_DOTS = bytes(sum(not byte >> bit & 1 for bit in range(8)) for byte in range(256))  # of each picture byte


def wire_byte(stage, byte, dots):
    """The codes of four dots of a picture byte, high pair first. Dot 0 is bit 7."""
    _, white, black = STAGES[stage]
    codes = 0
    for dot in dots:
        codes = codes << 2 | (white if byte >> (7 - dot) & 1 else black)
    return codes


# for each stage, from a picture byte to its wire byte
EVEN = {stage: bytes(wire_byte(stage, byte, (0, 2, 4, 6)) for byte in range(256)) for stage in STAGES}
ODD = {stage: bytes(wire_byte(stage, byte, (7, 5, 3, 1)) for byte in range(256)) for stage in STAGES}


@functools.lru_cache(maxsize=2000)
def line(panel, stage, row, dots):
    """What a poll hands out for a row: the line and the write that follows it, in hexadecimal."""
    scan = bytearray(panel.height // 4)
    scan[row // 4] = SCAN_MARKS[row % 4]
    body = dots.translate(EVEN[stage]) + scan + dots[::-1].translate(ODD[stage])
    return upper(bytes.fromhex("700A72") + body + bytes.fromhex("7002722F"))


def upper(bytes_out):
    return bytes_out.hex().upper()


def with_waits(steps):
    """Pairs of a write's whole wait and its bytes; and the wait after the last write. Neighbouring waits are summed."""
    writes, wait = [], 0
    for kind, value in steps:
        if kind == "wait":
            wait += value
        else:
            writes.append((wait, upper(bytes([0x70, value[0], 0x72]) + value[1:])))
            wait = 0
    return writes, wait


class Run:
    """A run under way. Moments are passed time."""

    def __init__(self, panel, start, stop, slot, tick):
        self.panel = panel
        self.start, self.wait_before_lines = start
        self.stop, self.wait_before_done = stop
        self.slot = slot
        self.last = tick     # the last accepted tick reading
        self.passed = 0
        self.handed = 0      # when the thing before was handed out, or the start call
        self.first = None    # F
        self.next = 0        # things handed out so far
        self.first_line = len(self.start)
        self.first_stop = self.first_line + 4 * panel.frames * panel.height
        self.last_thing = self.first_stop + len(self.stop)

    def due(self):
        """The moment from which the next thing may be handed out."""
        if self.next < self.first_line:
            return self.handed + self.start[self.next][0]
        if self.next < self.first_stop:
            frame, row = divmod(self.next - self.first_line, self.panel.height)
            if row > 0:
                return self.handed  # at once
            return self.first + FRAME_MS * frame if frame > 0 else self.handed + self.wait_before_lines
        since = max(self.handed, self.lines_end()) if self.next == self.first_stop else self.handed
        return since + (self.stop[self.next - self.first_stop][0] if self.next < self.last_thing else self.wait_before_done)

    def lines_end(self):
        """F + 120N, the earliest moment of all that follows the lines."""
        return self.first + 4 * self.panel.frames * FRAME_MS

    def to_go(self):
        """Milliseconds until the next thing is due, 0 if it is."""
        return max(0, self.due() - self.passed)

    def stage(self):
        """The stage of the next thing: 1 to 4, 0 among the start writes, 5 after the lines."""
        if self.next < self.first_line:
            return 0
        return 1 + min(4, (self.next - self.first_line) // (self.panel.frames * self.panel.height))

    def row(self):
        return (self.next - self.first_line) % self.panel.height


class Fill:
    """A bitmap file on its way into a slot."""

    def __init__(self, slot):
        self.slot = slot
        self.came = b""  # of the file, so far


class Store:
    """The store and the memory that the program lends it. A call answers a number, or 0 and what it gives."""

    def __init__(self):
        self.memory = bytearray(MOST_MEMORY)
        self.lent = 0
        self.panel = None  # None: the empty state
        self.slots = 0     # n
        self.start_steps = self.stop_steps = ([], 0)
        self.running = None
        self.abandoned = False
        self.fill = None

    def size(self):
        return self.panel.width // 8 * self.panel.height

    def picture(self, slot):
        return bytes(self.memory[slot * self.size():(slot + 1) * self.size()])

    def row(self, slot, y):
        length = self.panel.width // 8
        at = slot * self.size() + y * length
        return bytes(self.memory[at:at + length])

    def open(self, n, file, length=None):
        self.panel = self.running = self.fill = None
        self.abandoned = False
        try:
            panel, start, stop = settings.read_settings(file)
        except settings.Refused:
            return 2
        whole = (n + 1) * (panel.width // 8 * panel.height)
        if not 1 <= n <= 7 or length not in (None, whole):
            return 1
        self.panel, self.slots, self.lent = panel, n, whole
        self.start_steps, self.stop_steps = with_waits(start), with_waits(stop)
        self.memory[:whole] = WHITE_BYTE * whole
        return 0

    def lend(self, length):
        self.lent = length
        return 0

    def unusable(self):
        """13 or 1, which every call looks at first; 0 where neither applies."""
        if self.panel is None:
            return 13
        return 0 if self.lent == (self.slots + 1) * self.size() else 1

    def no_upload(self, slot):
        """The numbers that both uploads look at before what they bring, and a begin before 16."""
        if self.unusable():
            return self.unusable()
        if not 1 <= slot <= self.slots:
            return 3
        if self.running and self.running.slot == slot:
            return 7
        return 15 if self.filled(slot) else 0

    def filled(self, slot):
        return self.fill is not None and self.fill.slot == slot

    def region(self, slot, x, y, width, height, payload):
        refusal = self.no_upload(slot)
        if refusal:
            return refusal
        if width < 1 or height < 1 or x + width > self.panel.width or y + height > self.panel.height:
            return 5
        stride = -(-width // 8)
        if len(payload) != stride * height:
            return 6
        rows = [int.from_bytes(payload[at:at + stride], "big") for at in range(0, len(payload), stride)]
        unused = 8 * stride - width
        if any(row & ((1 << unused) - 1) for row in rows):
            return 6
        for i, row in enumerate(rows):
            self.paint(slot, x, y + i, width, row >> unused)
        return 0

    def paint(self, slot, x, y, width, dots):
        """Replaces dots x to x + width - 1 of a row. A row as a number has dot 0 as its highest bit."""
        right = self.panel.width - x - width  # dots to the right of them
        mask = ((1 << width) - 1) << right
        row = int.from_bytes(self.row(slot, y), "big") & ~mask | dots << right
        length = self.panel.width // 8
        at = slot * self.size() + y * length
        self.memory[at:at + length] = row.to_bytes(length, "big")

    def bitmap(self, slot, file):
        refusal = self.no_upload(slot)
        if refusal:
            return refusal
        rows = bitmaps.read(self.panel, file)
        if rows is None:
            return 4
        self.put_picture(slot, b"".join(rows))
        return 0

    def put_picture(self, slot, picture):
        self.memory[slot * self.size():(slot + 1) * self.size()] = picture

    def begin(self, slot):
        refusal = self.no_upload(slot)
        if refusal:
            return refusal
        if self.fill:
            return 16
        self.fill = Fill(slot)
        return 0

    def no_fill(self):
        """The numbers that chunk, finish and cancel look at before the file."""
        if self.unusable():
            return self.unusable()
        return 0 if self.fill else 17

    def chunk(self, more):
        if self.no_fill():
            return self.no_fill()
        fill = self.fill
        before = self.whole_rows(fill)
        fill.came += more
        if not bitmaps.begins(self.panel, fill.came):
            return self.end_fill(4)
        for count in range(before, self.whole_rows(fill)):
            self.put_row(fill, count)
        return 0

    def whole_rows(self, fill):
        """How many rows have come, each with its padding."""
        return max(0, len(fill.came) - bitmaps.HEADER) // self.panel.stride

    def put_row(self, fill, count):
        """The row that came after so many others: the bottom one is the first."""
        at = bitmaps.HEADER + count * self.panel.stride
        dots = fill.came[at:at + self.panel.width // 8].translate(bitmaps.DOTS[bitmaps.colours_of(fill.came)])
        end = (fill.slot + 1) * self.size() - count * len(dots)
        self.memory[end - len(dots):end] = dots

    def finish(self):
        if self.no_fill():
            return self.no_fill()
        if not bitmaps.good(self.panel, self.fill.came):
            return self.end_fill(4)
        self.fill = None
        return 0

    def cancel(self):
        return self.no_fill() or self.end_fill(0)

    def end_fill(self, answer):
        """A fill that comes to nothing leaves its slot white."""
        self.put_picture(self.fill.slot, WHITE_BYTE * self.size())
        self.fill = None
        return answer

    def start(self, slot, tick):
        if self.unusable():
            return self.unusable()
        if self.running:
            return 8
        if self.abandoned:
            return 12
        if not 1 <= slot <= self.slots:
            return 3
        if self.filled(slot):
            return 15
        self.running = Run(self.panel, self.start_steps, self.stop_steps, slot, tick)
        return 0

    def poll(self, tick, length=POLL_OUTPUT):
        if self.unusable():
            return self.unusable()
        if not self.running:
            return 9
        if length < POLL_OUTPUT:
            return 11
        run = self.running
        step = (tick - run.last) % 2 ** 32
        if step >= 2 ** 31 or run.passed + step > MOST_PASSED:
            return 10
        run.last = tick
        run.passed += step
        to_go = run.to_go()
        return f"0 wait {to_go}" if to_go else self.hand_out(run)

    def hand_out(self, run):
        """The next thing, which is due."""
        if run.next == run.last_thing:
            self.memory[:self.size()] = self.picture(run.slot)
            self.running = None
            return "0 done"
        if run.next < run.first_line:
            given = "0 write " + run.start[run.next][1]
        elif run.next < run.first_stop:
            given = "0 line " + self.next_line(run)
        else:
            given = "0 write " + run.stop[run.next - run.first_stop][1]
        run.handed = run.passed
        run.next += 1
        return given

    def next_line(self, run):
        if run.next == run.first_line:
            run.first = run.passed
        stage, row = run.stage(), run.row()
        return line(run.panel, stage, row, self.row(0 if STAGES[stage][0] == SHOWN else run.slot, row))

    def abandon(self):
        if self.unusable():
            return self.unusable()
        if not self.running:
            return 9
        self.running = None
        self.abandoned = True
        return 0

    def write(self, slot, length=MOST_OUTPUT):
        if self.unusable():
            return self.unusable()
        if slot > self.slots:
            return 3
        if length < bitmaps.file_length(self.panel):
            return 11
        picture, stride = self.picture(slot), self.panel.width // 8
        return "0 " + upper(bitmaps.write(self.panel, [picture[at:at + stride] for at in range(0, len(picture), stride)]))

    def summary(self, slot):
        """A slot's black dots, and the first and last row with one. Nothing is kept of them: they are counted afresh. It is lent no
        memory, so 1 does not apply."""
        if self.panel is None:
            return 13
        if slot > self.slots:
            return 3
        picture, row_bytes = self.picture(slot), self.panel.width // 8
        black = sum(picture.translate(BLACK_DOTS))
        if black == 0:
            return "0 0 none"
        first = len(picture) - len(picture.lstrip(WHITE_BYTE))  # the byte of the first black dot, and of the last
        last = len(picture.rstrip(WHITE_BYTE)) - 1
        return f"0 {black} {first // row_bytes} {last // row_bytes}"


class Malformed(Exception):
    """The line is no call."""


def number(word, most=MOST_NUMBER):
    if not re.fullmatch("[0-9]+", word):
        raise Malformed
    word = word.lstrip("0") or "0"
    if len(word) > 10 or int(word) > most:
        raise Malformed
    return int(word)


def data(word):
    if word == "-":
        return b""
    if not re.fullmatch("([0-9A-Fa-f]{2})+", word):
        raise Malformed
    return bytes.fromhex(word)


def memory_length(word):
    return number(word, MOST_MEMORY)


def output_length(word):
    return number(word, MOST_OUTPUT)


# how each word after a call's name is read, and how many of them must be there
CALLS = {
    "open": ((number, data, memory_length), 2),
    "lend": ((memory_length,), 1),
    "region": ((number, number, number, number, number, data), 6),
    "bitmap": ((number, data), 2),
    "begin": ((number,), 1),
    "chunk": ((data,), 1),
    "finish": ((), 0),
    "cancel": ((), 0),
    "start": ((number, number), 2),
    "poll": ((number, output_length), 1),
    "abandon": ((), 0),
    "write": ((number, output_length), 1),
    "summary": ((number,), 1),
}


def read_call(text):
    """A line of a script as the call's name and its arguments."""
    name, *words = text.split(" ")
    if len(text) > LONGEST_CALL or name not in CALLS:
        raise Malformed
    readers, least = CALLS[name]
    if not least <= len(words) <= len(readers):
        raise Malformed
    return name, [reader(word) for reader, word in zip(readers, words)]


def answer(store, text):
    """The answer to a line of a script, each character one byte."""
    try:
        name, arguments = read_call(text)
    except Malformed:
        return "?"
    return str(getattr(store, name)(*arguments))


def main():
    store = Store()
    lines = sys.stdin.buffer.read().decode("latin-1").split("\n")
    for text in lines if lines[-1] else lines[:-1]:
        print(answer(store, text))


if __name__ == "__main__":
    main()
