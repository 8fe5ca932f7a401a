"""Writes a picture as a bitmap file with white first on standard output: Pillow saves the negative, and then the two entries of
the palette change places, since Pillow itself writes black first and nothing else.

Usage: python3 tests/bitmaps/negative.py NAME.pbm > NAME.bmp        (needs Pillow)
"""
import io
import sys

from PIL import Image, ImageChops


def main():
    saved = io.BytesIO()
    ImageChops.invert(Image.open(sys.argv[1])).save(saved, "BMP")
    file = saved.getvalue()
    sys.stdout.buffer.write(file[:54] + file[58:62] + file[54:58] + file[62:])


if __name__ == "__main__":
    main()
