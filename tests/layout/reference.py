"""A second, plain implementation of layouts, written from the request. The boxes are placed in the list's order: a box comes
after its parent, so that its place is known by then.

By hand, from the repository's root: python3 -m tests.layout.reference < INPUT
"""
import sys

from tests import panels

PANELS = {panel.code: (panel.width, panel.height) for panel in panels.PANELS}


class Refused(Exception):
    """The input breaks a rule; the argument is the number."""


def boxes_of(data):
    """The boxes as pairs (weights, child numbers); 29 where the list is broken."""
    if not data or not 1 <= data[0] <= 64:
        raise Refused(29)
    boxes, rest = [], data[1:]
    for _ in range(data[0]):
        if not rest or len(rest) < 1 + 2 * rest[0]:
            raise Refused(29)
        k = rest[0]
        boxes.append((list(rest[1:1 + k]), list(rest[1 + k:1 + 2 * k])))
        rest = rest[1 + 2 * k:]
    if rest:
        raise Refused(29)
    children = []
    for number, (weights, numbers) in enumerate(boxes):
        if len(weights) > 8 or not all(1 <= weight <= 100 for weight in weights):
            raise Refused(29)
        if not all(number < child for child in numbers):
            raise Refused(29)
        children += numbers
    if sorted(children) != list(range(1, len(boxes))):
        raise Refused(29)
    return boxes


def levels_of(boxes):
    """The level of each box; the first is at level 1."""
    levels = [1] * len(boxes)
    for number, (_, numbers) in enumerate(boxes):
        for child in numbers:
            levels[child] = levels[number] + 1
    return levels


def edges(size, weights):
    """Where the children's edges stand: at floor(size times weights so far over total)."""
    so_far = [sum(weights[:j]) for j in range(len(weights) + 1)]
    return [size * weight // so_far[-1] for weight in so_far]


def places_of(boxes, levels, width, height):
    """Each box as (x, y, width, height). A box at an odd level is a row box."""
    places = [(0, 0, width, height)] * len(boxes)
    for number, (weights, numbers) in enumerate(boxes):
        x, y, width, height = places[number]
        if not weights:
            continue
        if levels[number] % 2 == 1:
            at = edges(width, weights)
            parts = [(x + low, y, high - low, height) for low, high in zip(at, at[1:])]
        else:
            at = edges(height, weights)
            parts = [(x, y + low, width, high - low) for low, high in zip(at, at[1:])]
        for child, part in zip(numbers, parts):
            places[child] = part
    return places


def leaves(panel, data):
    if panel not in PANELS:
        raise Refused(14)
    boxes = boxes_of(data)
    levels = levels_of(boxes)
    if max(levels) > 6:
        raise Refused(30)
    places = places_of(boxes, levels, *PANELS[panel])
    if any(width == 0 or height == 0 for _, _, width, height in places):
        raise Refused(31)
    return [place for place, (weights, _) in zip(places, boxes) if not weights]


def text(data):
    """What the program writes for an input: the panel's code, then the list."""
    try:
        found = leaves(data[0] if data else None, data[1:])
    except Refused as refusal:
        return b"refused %d\n" % refusal.args[0]
    return b"".join(b"%d %d %d %d\n" % leaf for leaf in found)


if __name__ == "__main__":
    sys.stdout.buffer.write(text(sys.stdin.buffer.read()))
