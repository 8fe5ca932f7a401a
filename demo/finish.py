"""Shows the finish arch panels at work: bib 17 in normal mode, then bib 18 in fast mode.

The panel's picture is computed from nothing but the writes that the driver gives out. Run from the repository's root."""
import os
import subprocess
import sys
from collections import namedtuple

from demo import digits, picture
from demo.output import OutputClosed, board_text, discard_output, open_streams, say, say_wrapped
from demo.update import Unexpected
from simulator.finish import FinishGlass, Unready

PROGRAM = "target/demo/finish_things"
FOLDER = "target/demo"
Panel = namedtuple("Panel", "name width height")

# the panel maker's paper gives the bytes of a picture; these are the shapes that have them
PANELS = (Panel("5.81", 720, 256), Panel("7.41", 800, 480))
TEMPERATURE = 21
SHRUNK = 4  # a dot of the text stands for a square of so many dots across

# Made up: each byte is its own index, but for the four stages of the soft start, of which the second does not repeat.
OTP = bytes(range(0x28)) + bytes.fromhex("84 10 20 FB 05 A1 B1 82  80 11 22 33 44 A2 B2 FF  "
                                         "82 00 7F FF 01 A3 B3 80  81 05 06 00 FA A4 B4 8A") + bytes(range(0x48, 0x80))

INTRODUCTION = """
The finish arch: the picture is what a simulated panel makes of the writes that the driver gives out, and of nothing else. In
fast mode only the dots in which the two frames differ are driven."""


def main():
    open_streams()
    if not os.access(PROGRAM, os.X_OK):
        sys.exit("There is no program %s: run `make demo` from the repository's root." % PROGRAM)
    say("\n")
    say_wrapped(INTRODUCTION.strip())
    for panel in PANELS:
        show_panel(panel)


def show_panel(panel):
    """Bib 17 on a panel that shows white, then bib 18 over it."""
    heading = "%s inch panel, %d x %d dots" % panel
    say("\n\n%s\n%s\n" % (heading, "=" * len(heading)))
    glass = FinishGlass(panel.width * panel.height // 8)
    shown = None
    for number, mode in (("17", "normal"), ("18", "fast")):
        drawn = turned_over(digits.bib(panel, number))
        things = update(drawn, shown)
        send(glass, things)
        if glass.shown != drawn:
            raise Unexpected("the %s inch panel does not show the picture that was drawn" % panel.name)
        rows = [turned_over([glass.shown[k:k + panel.width // 8]]) for k in range(0, len(glass.shown), panel.width // 8)]
        say(board_text(shrunk(rows), told(things, number, mode)))
        say("The panel shows what was drawn: %s" % write_picture(rows, "%s-bib-%s" % (panel.name, number)))
        shown = drawn


def update(new, shown):
    """The things of an update as pairs: ('write', bytes), ('delay', ms) or ('busy', 0)."""
    names = [os.path.join(FOLDER, name) for name in ("otp", "new", "shown")[:2 if shown is None else 3]]
    for name, content in zip(names, (OTP, new, shown)):
        with open(name, "wb") as file:
            file.write(content)
    ran = subprocess.run([PROGRAM, str(TEMPERATURE)] + names, stdout=subprocess.PIPE, check=True)
    *lines, last = ran.stdout.decode("ascii").splitlines()
    if last != "done":
        raise Unexpected("an update ended with '%s'" % last)
    return [thing(*line.partition(" ")[::2]) for line in lines]


def thing(kind, value):
    return kind, bytes.fromhex(value) if kind == "write" else int(value or 0)


def send(glass, things):
    for kind, value in things:
        if kind == "write":
            glass.send(value)


def told(things, number, mode):
    """Lines of text on an update."""
    writes = [value for kind, value in things if kind == "write"]
    delays = [value for kind, value in things if kind == "delay"]
    return ["bib %s in %s mode at %d degrees" % (number, mode, TEMPERATURE),
            "%d things were given out:" % len(things),
            "%d writes, %s bytes" % (len(writes), format(sum(map(len, writes)), ",")),
            "%d delays, %d ms" % (len(delays), sum(delays)),
            "BUSY asked %d times" % sum(kind == "busy" for kind, _ in things)]


def turned_over(rows):
    """The bytes of a picture in which a 1 is black, from rows in which it is white; and the way back."""
    return bytes(byte ^ 0xFF for row in rows for byte in row)


def shrunk(rows):
    """Rows with every fourth dot, for the text, filled up to whole bytes with white."""
    dots = [digits.bits(row)[::SHRUNK] for row in rows[::SHRUNK]]
    return [digits.packed(row + "1" * (-len(row) % 8)) for row in dots]


def write_picture(rows, name):
    """Writes the panel's dots as a PNG file, and gives back its name."""
    path = "%s/%s.png" % (FOLDER, name)
    with open(path, "wb") as file:
        file.write(picture.png([[[int(dot) - 1 for dot in digits.bits(row)] for row in rows]], -1))
    return path


if __name__ == "__main__":
    try:
        main()
    except OutputClosed:
        discard_output()
    except (Unexpected, Unready, OSError, subprocess.CalledProcessError) as trouble:
        sys.exit("The demo failed: %s." % trouble)
    except KeyboardInterrupt:
        sys.exit(130)
