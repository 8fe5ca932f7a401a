"""Ways to cut a bitmap file into chunks, and files that go wrong on the way."""
from tests.bitmaps import reference as bitmaps
from tests.bitmaps.reference import HEADER
from tests.replay import inputs


def cut_at(file, places):
    """The pieces of a file between these places. A place that stands twice gives an empty piece."""
    ends = [0, *sorted(places), len(file)]
    return [file[begin:end] for begin, end in zip(ends, ends[1:])]


# where to cut: from a random source, the panel and the file's length to places

def nowhere(rng, panel, length):
    return []


def one_place(rng, panel, length):
    return [rng.randint(0, length)]


def in_the_header(rng, panel, length):
    return rng.sample(range(HEADER + 1), rng.randint(1, 6))


def anywhere(rng, panel, length):
    return [rng.randint(0, length) for _ in range(rng.randint(2, 12))]


FEW = (nowhere, one_place, in_the_header, anywhere)  # pieces


def every_byte(rng, panel, length):
    return range(1, length)


def every_byte_of_header(rng, panel, length):
    return range(1, HEADER + 1)


def inside_every_field(rng, panel, length):
    return [rng.randint(at, at + size) for at, size in inputs.LOOKED_AT]


def row_ends(rng, panel, length):
    return range(HEADER, length, panel.stride)


def before_row_ends(rng, panel, length):
    return [end - 1 for end in row_ends(rng, panel, length)]


def after_row_ends(rng, panel, length):
    return [end + 1 for end in row_ends(rng, panel, length)]


def in_the_padding(rng, panel, length):
    """Before, in or after each row's padding; without padding before or after each row's last byte."""
    padding = max(1, panel.stride - panel.width // 8)
    return [end - rng.randint(0, padding) for end in row_ends(rng, panel, length)]


def every_64(rng, panel, length):
    return range(64, length, 64)


def any_lengths(rng, panel, length):
    places, at, most = [], 0, rng.choice((3, 20, 80, 400))
    while at < length:
        at += rng.randint(0, most)
        places.append(at)
    return places


MANY = (every_byte_of_header, inside_every_field, row_ends, before_row_ends, after_row_ends, in_the_padding, every_64, any_lengths)


def cut(rng, panel, file, way):
    """Now and then with an empty chunk among the others."""
    places = list(way(rng, panel, len(file)))
    while rng.random() < 0.2:
        places.append(rng.choice((0, len(file), *places)))
    return cut_at(file, places)


# files

def other_order(file):
    """The same bits with the palette's two colours exchanged."""
    return file[:54] + file[58:61] + file[57:58] + file[54:57] + file[61:]


def spoiled(rng, panel):
    """Files with one byte changed: each byte of the header that has a rule."""
    for at, size in inputs.LOOKED_AT:
        for place in range(at, at + size):
            yield inputs.changed(rng, inputs.bitmap(rng, panel), place, 1)


def mixed(rng, panel):
    """Each byte that has two good values takes one of them by itself: at 34, at 46 and in the palette."""
    files = [bytearray(file) for file in bitmaps.CHOICES[panel]]
    for file in files:
        file[bitmaps.HEADER:] = rng.randbytes(len(file) - HEADER)
    places = [*range(34, 38), *range(46, 50), *range(54, 57), *range(58, 61)]
    whole = bytearray(rng.choice(files))
    for place in rng.sample(places, rng.choice((1, 2, 14))):
        whole[place] = rng.choice(files)[place]
    return bytes(whole)


def damaged(rng, panel):
    return rng.choice((inputs.damaged_bitmap, inputs.damaged_bitmap, mixed))(rng, panel)


def first_bad(panel, came):
    """The place of the first byte with which no good file can follow any more: in the header, or right after a whole file."""
    bad = (place for place in range(HEADER) if not bitmaps.begins(panel, came[:place + 1]))
    return next(bad, bitmaps.file_length(panel))
