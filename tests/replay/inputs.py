"""Random settings files, pictures, bitmaps and regions: good ones at all edges, and ones with a fault."""
from tests.bitmaps import reference as bitmaps
from tests.listing.reference import DATA_LENGTH
from tests.panels import PANELS

HUGE = (2 ** 32 - 1, 2 ** 32 - 2, 2 ** 32 - 7, 2 ** 31, 2 ** 31 - 1, 65536, 65535, 256)


# settings files

def write_step(rng, panel, register):
    known = {0x01: panel.channels, 0x04: panel.level}
    return bytes([0x57, register]) + known.get(register, rng.randbytes(DATA_LENGTH.get(register, 1)))


def wait_step(ms):
    return b"\x44" + ms.to_bytes(2, "big")


def random_wait(rng):
    return wait_step(rng.choice((1, 2, 15, 29, 30, 31, 60, 999, 1000, rng.randint(1, 1000))))


def random_waits(rng, most):
    return [random_wait(rng) for _ in range(rng.randint(1, most))]


def random_steps(rng, panel, count):
    return [random_wait(rng) if rng.random() < 0.4 else write_step(rng, panel, rng.randint(1, 9)) for _ in range(count)]


def every_register(rng, panel):
    """All nine registers in random order, with waits between some of them."""
    steps = []
    for register in rng.sample(range(1, 10), 9):
        steps += random_waits(rng, 2) if rng.random() < 0.5 else []
        steps.append(write_step(rng, panel, register))
    return steps


def start_steps(rng, panel):
    needed = [write_step(rng, panel, 0x01), write_step(rng, panel, 0x04)]
    rng.shuffle(needed)
    shape = rng.choice(("shortest", "few", "full", "waits after", "waits before", "every register"))
    if shape == "shortest":
        return needed
    if shape == "waits after":
        return needed + random_waits(rng, 4)
    if shape == "waits before":
        return random_waits(rng, 4) + needed
    if shape == "every register":
        return every_register(rng, panel)
    steps = needed + random_steps(rng, panel, 30 if shape == "full" else rng.randint(1, 6))
    rng.shuffle(steps)
    return steps


def stop_steps(rng, panel):
    shape = rng.choice(("none", "waits alone", "few", "full", "waits after", "every register"))
    if shape == "none":
        return []
    if shape == "waits alone":
        return random_waits(rng, rng.choice((1, 3, 32)))
    if shape == "full":
        return random_steps(rng, panel, 32)
    if shape == "waits after":
        return [write_step(rng, panel, rng.randint(1, 9))] + random_waits(rng, 3)
    if shape == "every register":
        return every_register(rng, panel)
    return random_steps(rng, panel, rng.randint(1, 6))


def joined(code, start, stop):
    return bytes([1, code, len(start)]) + b"".join(start) + bytes([len(stop)]) + b"".join(stop)


def settings_file(rng, panel):
    return joined(panel.code, start_steps(rng, panel), stop_steps(rng, panel))


def with_all_registers(rng, panel):
    """All nine registers among the start and the stop steps, and a wait before done."""
    return joined(panel.code, every_register(rng, panel), every_register(rng, panel) + random_waits(rng, 3))


def with_faulty_step(rng, panel):
    """A file with one step that breaks a rule, among the start or the stop steps."""
    other = PANELS[(panel.code + rng.choice((1, 2))) % 3]
    faulty = rng.choice((
        wait_step(0), wait_step(1001), wait_step(65535), write_step(rng, panel, 0x00), write_step(rng, panel, 0x0A),
        b"\x57\x01" + other.channels, b"\x57\x04" + bytes([panel.level[0] ^ 3]), b"\x00", b"\x58" + rng.randbytes(2)))
    start, stop = start_steps(rng, panel)[:31], stop_steps(rng, panel)[:31]
    steps = rng.choice((start, stop))
    steps.insert(rng.randint(0, len(steps)), faulty)
    return joined(panel.code, start, stop)


def without_needed_write(rng, panel):
    """No write of 0x01 or none of 0x04 among the start steps; it may stand among the stop steps."""
    missing = rng.choice((0x01, 0x04))
    start = [step for step in start_steps(rng, panel) if step[:2] != bytes([0x57, missing])]
    return joined(panel.code, start + [wait_step(5)] * (2 - len(start)), [write_step(rng, panel, missing)])


def with_wrong_count(rng, panel):
    start, stop = start_steps(rng, panel), stop_steps(rng, panel)
    file = bytearray(joined(panel.code, start, stop))
    at, counts = rng.choice(((0, (0, 2, 255)), (1, (3, 4, 255)), (2, (0, 1, 33, len(start) - 1, len(start) + 1)),
                             (len(file) - sum(map(len, stop)) - 1, (33, 255, len(stop) + 1))))
    file[at] = rng.choice(counts)
    return bytes(file)


def damaged_settings(rng, panel):
    """A file that nearly always breaks a rule."""
    file = settings_file(rng, panel)
    way = rng.randrange(8)
    if way == 0:
        return file[:rng.randrange(len(file))]
    if way == 1:
        return file + rng.randbytes(rng.choice((1, 1, 2, 700)))
    if way == 2:
        return changed(rng, file, rng.randrange(len(file)), 1)
    if way == 3:
        return joined(panel.code, (start_steps(rng, panel) * 17)[:33], [])
    if way == 4:
        return joined(panel.code, start_steps(rng, panel), random_steps(rng, panel, 33))
    return rng.choice((with_faulty_step, without_needed_write, with_wrong_count))(rng, panel)


# pictures and bitmaps

def picture(rng, panel):
    """Rows of X/8 bytes."""
    length = panel.width // 8
    kind = rng.randrange(8)
    if kind == 0:
        return [rng.choice((b"\x00", b"\xFF")) * length] * panel.height
    if kind == 1:
        return [bytes([rng.randrange(256)]) * length for _ in range(panel.height)]
    if kind == 2:
        row = rng.randbytes(length)
        return [row] * panel.height
    if kind == 3:
        return few_black(rng, panel)
    return [rng.randbytes(length) for _ in range(panel.height)]


def few_black(rng, panel):
    """White but for some dots, often in a corner."""
    rows = [bytearray(b"\xFF" * (panel.width // 8)) for _ in range(panel.height)]
    for _ in range(rng.randint(1, 3)):
        y, x = (rng.choice((0, last, rng.randint(0, last))) for last in (panel.height - 1, panel.width - 1))
        rows[y][x // 8] &= ~(0x80 >> x % 8)
    return [bytes(row) for row in rows]


def changed(rng, file, at, length):
    """The file with another number at this place."""
    old = int.from_bytes(file[at:at + length], "little")
    most = 256 ** length
    new = rng.choice((old + 1, old - 1, old ^ 1 << rng.randrange(8 * length), -old, rng.randrange(most))) % most
    new = new if new != old else (old + 1) % most
    return file[:at] + new.to_bytes(length, "little") + file[at + length:]


def bitmap(rng, panel):
    """A good file. All that is not looked at may hold anything."""
    file = bytearray(bitmaps.write(panel, picture(rng, panel)))
    if rng.random() < 0.7:
        file[34:38] = rng.choice((bytes(4), file[34:38]))
        file[38:46] = rng.randbytes(8)
        file[46:50] = rng.choice((0, 2)).to_bytes(4, "little")
        file[50:54] = rng.randbytes(4)
        file[57], file[61] = rng.randbytes(2)
        if rng.random() < 0.5:
            file[54:57], file[58:61] = file[58:61], file[54:57]
        padding = panel.stride - panel.width // 8
        for y in range(panel.height if padding else 0):
            end = bitmaps.HEADER + (y + 1) * panel.stride
            file[end - padding:end] = rng.randbytes(padding)
    return bytes(file)


# place and length of the header's fields that have a rule
LOOKED_AT = ((0, 1), (1, 1), (2, 4), (6, 2), (8, 2), (10, 4), (14, 4), (18, 4), (22, 4), (26, 2), (28, 2), (30, 4), (34, 4),
             (46, 4), (54, 3), (58, 3))


def damaged_bitmap(rng, panel):
    file = bitmap(rng, panel)
    way = rng.randrange(10)
    if way == 0:
        return file[:rng.choice((0, 1, 61, 62, len(file) - 1, rng.randrange(len(file))))]
    if way == 1:
        return file + rng.randbytes(rng.choice((1, 2, 36, 1000)))
    if way == 2:
        return bitmap(rng, PANELS[(panel.code + rng.choice((1, 2))) % 3])
    if way == 3:
        return rng.randbytes(len(file))
    if way == 4:
        longer = file + bytes(rng.choice((1, 4)))
        return longer[:2] + len(longer).to_bytes(4, "little") + longer[6:]
    if way == 5:
        return other_palette(rng, file)
    return changed(rng, file, *rng.choice(LOOKED_AT))


def other_palette(rng, file):
    """Colours that are not black and white: one of these twice, nearly these, or any."""
    black, white = bitmaps.BLACK, bitmaps.WHITE
    pair = [*rng.choice(((black, black), (white, white), (black, b"\xFF\xFF\xFE"), (b"\x01\x00\x00", white), (white, b"\x00\x00\x80"),
                         (b"\x00\xFF\xFF", b"\xFF\x00\x00"), (rng.randbytes(3), white)))]
    rng.shuffle(pair)
    return file[:54] + pair[0] + file[57:58] + pair[1] + file[61:]


# regions

def region(rng, panel):
    """x, y, width and height of a region that fits, often at an edge."""
    width = rng.choice((1, 2, 7, 8, 9, panel.width, panel.width - 1, rng.randint(1, panel.width), rng.randint(1, 24)))
    height = rng.choice((1, 1, 2, 3, panel.height, rng.randint(1, panel.height), rng.randint(1, 8)))
    x = rng.choice((0, panel.width - width, rng.randint(0, panel.width - width)))
    y = rng.choice((0, panel.height - height, rng.randint(0, panel.height - height)))
    return x, y, width, height


def faulty_region(rng, panel):
    """One that does not fit, also where sums or products in 32 bits would."""
    x, y, width, height = region(rng, panel)
    huge = rng.choice(HUGE)
    return rng.choice((
        (x, y, 0, height), (x, y, width, 0), (x, y, 0, 0), (panel.width, y, 0, height), (x, panel.height, width, 0),
        (x, y, panel.width - x + 1, height), (x, y, width, panel.height - y + 1), (panel.width, y, 1, height),
        (x, panel.height, width, 1), (panel.width - width + 1, y, width, height), (x, panel.height - height + 1, width, height),
        (huge, y, width, height), (x, huge, width, height), (x, y, huge, height), (x, y, width, huge),
        (2 ** 32 - width, y, width, height), (x, 2 ** 32 - height, width, height), (x, y, 2 ** 32 - x - 1, height),
        (x + 1, y, 2 ** 32 - x - 1, height), (x, y + 1, width, 2 ** 32 - y - 1), (2 ** 31, 2 ** 31, 2 ** 31, 2 ** 31),
        (x, y, width, 2 ** 31), (rng.choice(HUGE), rng.choice(HUGE), huge, rng.choice(HUGE))))


def payload(rng, width, height):
    """Rows of random dots whose unused bits are 0."""
    stride = -(-width // 8)
    unused = 8 * stride - width
    fill = rng.choice((None, None, 0, 2 ** width - 1))
    rows = ((rng.getrandbits(width) if fill is None else fill) << unused for _ in range(height))
    return b"".join(row.to_bytes(stride, "big") for row in rows)


def faulty_payload(rng, width, height):
    good = payload(rng, width, height)
    stride = -(-width // 8)
    unused = 8 * stride - width
    if unused and rng.random() < 0.6:
        at = rng.choice((0, height - 1, rng.randrange(height))) * stride + stride - 1
        return good[:at] + bytes([good[at] | 1 << rng.randrange(unused)]) + good[at + 1:]
    return rng.choice((good[:-1], good + b"\x00", good + rng.randbytes(1), b"", good + good[:stride], good[stride:]))
