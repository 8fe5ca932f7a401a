"""Checks the reference by itself. Its fills against its whole uploads: however a file is cut, the slot and the store end as after one
upload of it, or with 4 and a white slot, from the chunk with which a field can no longer become good. Its summaries dot by dot.

Usage, from the repository's root: python3 -m tests.replay.whole
"""
import random
import sys

from tests.bitmaps import reference as bitmaps
from tests.panels import PANELS
from tests.replay import cuts, inputs, reference

SLOTS, SLOT = 2, 1
PALETTES = ((b"\x00\x00\x00", b"\xFF\xFF\xFF"), (b"\xFF\xFF\xFF", b"\x00\x00\x00"))


def opened(panel, picture):
    """A store with this picture in the slot."""
    store = reference.Store()
    store.open(SLOTS, inputs.settings_file(random.Random(0), panel))
    store.bitmap(SLOT, bitmaps.write(panel, picture))
    return store


def fields(panel):
    """Each field of the header that has a rule: its place, and the bytes that are good there."""
    rows = panel.height * panel.stride
    numbers = ((2, 4, (62 + rows,)), (6, 4, (0,)), (10, 4, (62,)), (14, 4, (40,)), (18, 4, (panel.width,)), (22, 4, (panel.height,)),
               (26, 2, (1,)), (28, 2, (1,)), (30, 4, (0,)), (34, 4, (0, rows)), (46, 4, (0, 2)))
    yield 0, (b"BM",)
    for at, size, values in numbers:
        yield at, [value.to_bytes(size, "little") for value in values]


def can_become_good(panel, came):
    """The rule of a chunk field by field: what came of each begins one of its good values."""
    def begins(at, value):
        return value.startswith(came[at:at + len(value)])

    return (len(came) <= 62 + panel.height * panel.stride
            and all(any(begins(at, value) for value in values) for at, values in fields(panel))
            and any(begins(54, first) and begins(58, second) for first, second in PALETTES))


def rows_so_far(panel, old, new, came):
    """The picture after so many bytes of a file: from the bottom, the new rows whose stride has come."""
    return [new[y] if 62 + (panel.height - y) * panel.stride <= came else old[y] for y in range(panel.height)]


def same_as_whole(rng, panel, file, way):
    """Whether a good file is taken, row by row, and leaves what one upload leaves."""
    old, new = inputs.picture(rng, panel), bitmaps.read(panel, file)
    store, whole = opened(panel, old), opened(panel, old)
    good = store.begin(SLOT) == 0 and store.picture(SLOT) == b"".join(old)
    came = 0
    for piece in cuts.cut(rng, panel, file, way):
        came += len(piece)
        good = good and store.chunk(piece) == 0 and store.picture(SLOT) == b"".join(rows_so_far(panel, old, new, came))
    good = good and store.finish() == 0 and whole.bitmap(SLOT, file) == 0
    return good and vars(store) == vars(whole)


def ends_white(rng, panel, file, way):
    """Whether a bad file gets 4 where it must, and leaves its slot white and no fill."""
    store, empty = opened(panel, inputs.picture(rng, panel)), opened(panel, [b"\xFF" * (panel.width // 8)] * panel.height)
    store.begin(SLOT)
    came, wanted = b"", []
    for piece in cuts.cut(rng, panel, file, way):
        came += piece
        wanted.append((piece, 0 if can_become_good(panel, came) else 4))
        if wanted[-1][1]:
            break
    good = all(store.chunk(piece) == number for piece, number in wanted)
    if not wanted[-1][1]:
        good = good and store.finish() == 4
    return good and vars(store) == vars(empty) and store.chunk(b"") == store.finish() == store.cancel() == 17


def summary_by_dots(panel, picture):
    rows = [sum(not row[x // 8] >> 7 - x % 8 & 1 for x in range(panel.width)) for row in picture]
    black = [y for y, count in enumerate(rows) if count]
    return f"0 {sum(rows)} {min(black)} {max(black)}" if black else "0 0 none"


def tried(rng):
    """What is checked, and whether it holds."""
    ways = (*cuts.FEW, *cuts.MANY)
    for panel in PANELS:
        for picture in (inputs.picture(rng, panel) for _ in range(50)):
            same = opened(panel, picture).summary(SLOT) == summary_by_dots(panel, picture)
            yield f"{panel.name} inch, summary of {b''.join(picture).hex()}", same
        for way in (*ways * 5, cuts.every_byte):
            file = inputs.bitmap(rng, panel)
            yield f"{panel.name} inch, {way.__name__}", same_as_whole(rng, panel, file, way)
            yield f"{panel.name} inch, other order, {way.__name__}", same_as_whole(rng, panel, cuts.other_order(file), way)
        files = [*cuts.spoiled(rng, panel), *(cuts.damaged(rng, panel) for _ in range(100)), *(cuts.mixed(rng, panel) for _ in range(100))]
        for file in files:
            if bitmaps.read(panel, file) is None:
                way = rng.choice(ways)
                yield f"{panel.name} inch, {file[:70].hex()}.. of {len(file)}, {way.__name__}", ends_white(rng, panel, file, way)
            for place in range(66):
                same = bitmaps.begins(panel, file[:place]) == can_become_good(panel, file[:place])
                yield f"{panel.name} inch, whether {file[:place].hex()} begins a good file", same


def main():
    passed = failed = 0
    for what, good in tried(random.Random(17)):
        passed += good
        failed += not good
        if failed == 1 and not good:
            print("first fault: " + what)
    print(f"{passed} passed, {failed} failed")
    sys.exit(1 if failed else 0)


if __name__ == "__main__":
    main()
