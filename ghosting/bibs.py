"""Pictures of bibs on the 1.44 inch panel: two large digits over a black bar.

Dots that are drawn alike in every picture have the same history, so a season is followed for each kind of dot: the white ground,
the bar, and each cell of the two digits."""
from simulator.panel import PANELS

PANEL = PANELS[0]
DIGITS = (  # five cells wide, seven high
    "01110 10001 10011 10101 11001 10001 01110",
    "00100 01100 00100 00100 00100 00100 01110",
    "01110 10001 00001 00110 01000 10000 11111",
    "11110 00001 00001 01110 00001 00001 11110",
    "00010 00110 01010 10010 11111 00010 00010",
    "11111 10000 11110 00001 00001 10001 01110",
    "00110 01000 10000 11110 10001 10001 01110",
    "11111 00001 00010 00100 01000 01000 01000",
    "01110 10001 10001 01110 10001 10001 01110",
    "01110 10001 10001 01111 00001 00010 01100",
)
CELLS = [digit.replace(" ", "") for digit in DIGITS]
NO_DIGIT = "0" * 35
CELL = 10  # dots
TENS, UNITS, TOP = 9, 69, 8  # where the digits stand
BAR = (9, 84, 110, 8)  # x, y, width, height
BLANK = 0  # a picture that is all white
GROUND_KIND, BAR_KIND = 0, 1
KINDS = 2 + 2 * 35


def colours(bib):
    """The colour of each kind of dot in the picture of a bib: 1 is white, 0 black."""
    if bib == BLANK:
        return (1,) * KINDS
    tens = CELLS[bib // 10] if bib > 9 else NO_DIGIT
    return (1, 0) + tuple(1 - int(cell) for cell in tens + CELLS[bib % 10])


def kind_at(x, y):
    left, top, width, height = BAR
    if left <= x < left + width and top <= y < top + height:
        return BAR_KIND
    for first, at in ((2, TENS), (37, UNITS)):
        column, row = (x - at) // CELL, (y - TOP) // CELL
        if 0 <= column < 5 and 0 <= row < 7:
            return first + 5 * row + column
    return GROUND_KIND


# the kind of every dot, row by row
KIND_ROWS = [tuple(kind_at(x, y) for x in range(PANEL.width)) for y in range(PANEL.height)]


def dot_rows(values):
    """A value for each dot, row by row, from the value of each kind."""
    made = {}
    for row in KIND_ROWS:
        if row not in made:
            made[row] = [values[kind] for kind in row]
    return [made[row] for row in KIND_ROWS]


def picture(bib):
    """The rows of a picture as bytes."""
    return [int("".join(map(str, row)), 2).to_bytes(PANEL.width // 8, "big") for row in dot_rows(colours(bib))]
