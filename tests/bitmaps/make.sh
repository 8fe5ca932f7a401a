#!/bin/sh
# Makes the kept pictures again. Needs python3-pil, netpbm and imagemagick; run from the repository's root.
# The tests do not need it: the files it makes are kept.
set -e
PYTHON=${PYTHON:-python3} # the one that has Pillow
CONVERT=${CONVERT:-convert} # ImageMagick's
cd tests/bitmaps

make_one() {
    "$PYTHON" picture.py "$2" "$3" > "$1.pbm"
    "$PYTHON" -c 'import sys; from PIL import Image; Image.open(sys.argv[1]).save(sys.argv[2])' \
        "$1.pbm" "$1.pillow.bmp"
    "$PYTHON" negative.py "$1.pbm" > "$1.pillow-white.bmp"
    ppmtobmp -quiet -windows -bpp=1 "$1.pbm" > "$1.netpbm.bmp"
    ppmtoppm < "$1.pbm" | ppmtobmp -quiet -windows -bpp=1 -mapfile=white_black.ppm > "$1.netpbm-white.bmp"
    "$CONVERT" "$1.pbm" -negate -monochrome -negate "BMP3:$1.imagemagick-white.bmp"
}

make_one panel_1_44 128 96
make_one panel_2_0 200 96
make_one panel_2_7 264 176
