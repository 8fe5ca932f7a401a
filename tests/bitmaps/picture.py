"""Draws the source picture of one panel as a raw PBM file on standard output.

Usage: python3 tests/bitmaps/picture.py X Y > tests/bitmaps/NAME.pbm

Black on white: the bib number 17, a frame line on the left and a thin one on the top that stops
early, and a pattern of dots in the lower right corner. No mirror image or turned one is the same.
"""
import sys


def black(x, y, width, height):
    if x < 3:
        return True  # frame line on the left
    if y == 0 and x < 2 * width // 3:
        return True  # thin line on the top, not all the way

    # The digits stand in a box; u and v run from 0 to 1000 across it.
    left, right, top, bottom = width // 8, 5 * width // 8, height // 8, 7 * height // 8
    if left <= x < right and top <= y < bottom:
        u = 1000 * (x - left) // (right - left)
        v = 1000 * (y - top) // (bottom - top)
        one = 180 <= u < 300 or (v < 250 and 0 <= 180 - u < 180 - 7 * v // 10)
        seven = (450 <= u and v < 140) or (v >= 140 and 870 - 4 * v // 10 <= u < 1000 - 4 * v // 10)
        return one or seven

    # Dots in the corner, to the last column and the last row.
    if x >= 11 * width // 16 and y >= height // 2:
        return (x * x + 3 * y) % 7 == 0 or (x == width - 1 and y % 2 == 0)
    return False


def main():
    width, height = int(sys.argv[1]), int(sys.argv[2])
    rows = bytearray()
    for y in range(height):
        for at in range(0, width, 8):
            byte = 0
            for x in range(at, at + 8):
                byte = 2 * byte + (x < width and black(x, y, width, height))
            rows.append(byte)
    sys.stdout.buffer.write(b"P4\n%d %d\n" % (width, height) + rows)


if __name__ == "__main__":
    main()
