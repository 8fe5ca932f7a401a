"""Draws docs/crates.svg from crates.txt: each crate a floor above the highest one that it stands on.

Run from the repository's root. `--check` only says whether the picture is as crates.txt has it.
"""
import sys

KIT = {"arrayvec", "hex", "io"}  # the toolchain's own crates
LISTED, PICTURE = "crates.txt", "docs/crates.svg"
ROOM, GAP, FLOOR, HIGH, LEFT = 152, 20, 84, 34, 20


def read(listed=LISTED):
    """crate: those of the repository that it stands on."""
    stands = {}
    with open(listed, encoding="ascii") as file:
        for line in file:
            name, colon, below = line.split("#")[0].partition(":")
            if colon:
                stands[name.split()[0]] = [crate for crate in below.split() if crate not in KIT]
    return stands


def reach(stands, crate):
    """All that a crate stands on, directly or through others."""
    found = set()
    for below in stands[crate]:
        found |= {below} | reach(stands, below)
    return found


def nearest(stands, crate):
    """Those that a crate stands on with no other between."""
    return [below for below in stands[crate]
            if not any(below in reach(stands, other) for other in stands[crate] if other != below)]


def floors(stands):
    """The crates of each floor, from the ground up. Within a floor a crate stands over the middle of what it stands on."""
    height = {}
    for crate in stands:
        height[crate] = max((height[below] + 1 for below in stands[crate]), default=0)
    rows, place = [], {}
    for level in range(max(height.values()) + 1):
        def middle(crate):
            below = [place[other] for other in nearest(stands, crate)]
            return sum(below) / len(below) if below else 0
        row = sorted((crate for crate in stands if height[crate] == level), key=middle)
        for k, crate in enumerate(row):
            place[crate] = k - (len(row) - 1) / 2
        rows.append(row)
    return rows


def picture(stands):
    rows = floors(stands)
    width = 2 * LEFT + max(len(row) for row in rows) * (ROOM + GAP) - GAP
    height = len(rows) * FLOOR - FLOOR + HIGH + 2 * LEFT
    corner = {}
    for level, row in enumerate(rows):
        start = (width - (len(row) * (ROOM + GAP) - GAP)) / 2
        for k, crate in enumerate(row):
            corner[crate] = start + k * (ROOM + GAP), height - LEFT - HIGH - level * FLOOR
    parts = [f'<svg xmlns="http://www.w3.org/2000/svg" viewBox="0 0 {width} {height}" width="{width}" height="{height}" '
             'font-family="sans-serif" font-size="14" text-anchor="middle">',
             f'<rect width="{width}" height="{height}" fill="white"/>']
    for crate in stands:
        x, y = corner[crate]
        for below in nearest(stands, crate):
            u, v = corner[below]
            parts.append(f'<path d="M{x + ROOM / 2:.0f} {y + HIGH}C{x + ROOM / 2:.0f} {y + FLOOR - 10} {u + ROOM / 2:.0f} {v - 40} '
                         f'{u + ROOM / 2:.0f} {v}" fill="none" stroke="#8a8a8a"/>')
    for crate, (x, y) in corner.items():
        parts.append(f'<rect x="{x:.0f}" y="{y}" width="{ROOM}" height="{HIGH}" rx="5" fill="#eef3fb" stroke="#33507e"/>'
                     f'<text x="{x + ROOM / 2:.0f}" y="{y + 22}" fill="#1c2c46">{crate}</text>')
    return "\n".join(parts + ["</svg>", ""])


def main():
    drawn = picture(read())
    if sys.argv[1:] == ["--check"]:
        with open(PICTURE, encoding="ascii") as file:
            if file.read() != drawn:
                sys.exit(f"{PICTURE} is not as {LISTED} has it: run python3 docs/crates.py")
    elif sys.argv[1:]:
        sys.exit("usage: python3 docs/crates.py [--check]")
    else:
        with open(PICTURE, "w", encoding="ascii") as file:
            file.write(drawn)


if __name__ == "__main__":
    main()
