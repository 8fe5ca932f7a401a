"""Draws a bib: its number in large digits, in a thin frame. A picture is a list of rows of bytes, as a panel has them."""

FRAME = 4  # dots from the panel's edge to the frame, and the frame's width


# A digit's shape says whether a point is black. The point is (u, v), counted from the top left corner of the digit's box,
# which is w by h dots. Strokes are t dots wide.

def one(u, v, w, h, t):
    stem = w - t
    flag = 0.55 * (stem - u)
    return u >= stem or flag <= v <= flag + 1.1 * t


def seven(u, v, w, h, t):
    across = 1.2 * t
    left = (w - across) - (0.8 * w - across) * (v - t) / (h - t)
    return v <= t or left <= u <= left + across


def eight(u, v, w, h, t):
    upper, lower = 0.48 * h + t / 2, 0.52 * h + t / 2  # together h + t: where the two rings meet they share a stroke
    top = (u - w / 2, v - upper / 2, 0.46 * w, upper / 2)
    bottom = (u - w / 2, v - h + lower / 2, 0.5 * w, lower / 2)
    return (rounded(*top) or rounded(*bottom)) and not (rounded(*top, t) or rounded(*bottom, t))


def rounded(x, y, a, b, inset=0):
    """Whether a point lies in a box with round corners around (0, 0), of half width a and half height b, less an inset."""
    return abs(x / (a - inset)) ** 2.4 + abs(y / (b - inset)) ** 2.4 <= 1


# the shape of each digit that the demo shows, and its width as a part of a full one
DIGITS = {"1": (one, 0.6), "7": (seven, 1.0), "8": (eight, 1.0)}


def boxes(panel, number):
    """The place of each digit as x, y, width and height, so that the number stands in the panel's middle."""
    y = 4 * FRAME
    height = panel.height - 2 * y
    gap = height // 5
    parts = [DIGITS[digit][1] for digit in number]
    gaps = gap * (len(parts) - 1)
    full = min(0.8 * height, (panel.width - 7 * FRAME - gaps) / sum(parts))
    widths = [round(part * full) for part in parts]
    x = (panel.width - sum(widths) - gaps) // 2
    places = []
    for width in widths:
        places.append((x, y, width, height))
        x += width + gap
    return places


def bib(panel, number):
    """The picture of a bib."""
    digits = [(DIGITS[digit][0], box) for digit, box in zip(number, boxes(panel, number))]

    def black(x, y):
        edge = min(x, y, panel.width - 1 - x, panel.height - 1 - y)
        if FRAME <= edge < 2 * FRAME:
            return True
        for shape, (left, top, width, height) in digits:
            if left <= x < left + width and top <= y < top + height:
                return shape(x - left + 0.5, y - top + 0.5, width, height, height / 5.5)
        return False

    return [packed("".join("0" if black(x, y) else "1" for x in range(panel.width))) for y in range(panel.height)]


def cut_out(picture, x, y, width, height):
    """The payload of a region upload: these dots of a picture, each row filled up to whole bytes with zero bits."""
    return b"".join(packed(bits(row)[x:x + width] + "0" * (-width % 8)) for row in picture[y:y + height])


def bits(row):
    """The dots of a row as text; a 1 is white."""
    return "".join("{:08b}".format(byte) for byte in row)


def packed(text):
    """The bytes of a row given as text."""
    return int(text, 2).to_bytes(len(text) // 8, "big")
