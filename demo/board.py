"""Shows the driver at work: on each panel bib 17, then bib 18 drawn over it.

The board's picture is computed from nothing but the bytes that the driver hands out. Run from the repository's root."""
import argparse
import os
import subprocess
import sys

from demo import digits, picture
from demo.output import OutputClosed, Progress, board_text, discard_output, open_streams, say, say_wrapped, side_by_side
from demo.timeline import timeline
from demo.update import STAGES, Clock, Unexpected, Update, accepted
from simulator import bitmap, settings
from simulator.panel import PANELS, Glass
from simulator.replay import PROGRAM, Replay

LISTING_PROGRAM = "target/bin/settings_list"
FOLDER = "target/demo"

FIRST_TICK = 4294967000  # 296 ms before the tick readings wrap
BETWEEN_BIBS = 60000     # ms
CHUNK = 64               # bytes at a time of a bitmap that comes by chunks

INTRODUCTION = """
Each picture is what a simulated panel makes of the bytes that the driver hands out, and of nothing else: it adds up the
pushes of each dot, +1 to white and -1 to black. Blocks are black dots. A run has four stages of equal frames: the shown
picture reversed, all white, the new picture reversed, the new picture. F is the moment of its first line; the board has
turned over when every dot is past half its way. Time is simulated: a byte takes 1 us on the bus, and once in each run the
loop oversleeps on purpose. Late frames follow without a gap until they are on time again."""


def main():
    open_streams()
    given = arguments()
    if given.only_arguments:
        return
    panels = given.panels
    for program in (PROGRAM, LISTING_PROGRAM):
        if not os.access(program, os.X_OK):
            sys.exit("There is no program %s: run `make demo` from the repository's root." % program)
    os.makedirs(FOLDER, exist_ok=True)
    say("Start board driver: bib 17 is shown, then bib 18 is drawn over it.\n")
    say_wrapped(INTRODUCTION.strip())
    for panel in panels:
        show_panel(panel, whole_listing=panel == panels[0])


def arguments():
    parser = argparse.ArgumentParser(
        prog="python3 -m demo.board", usage="%(prog)s [-h] [--only-arguments] [1.44] [2] [2.7]",
        description="Shows bib 17, then bib 18 drawn over it, on simulated e-paper panels.")
    parser.add_argument("panels", metavar="PANEL", nargs="*", type=panel_named, default=PANELS,
                        help="1.44, 2 or 2.7; all three where none is named")
    parser.add_argument("--only-arguments", action="store_true", help="only say whether the arguments are good")
    return parser.parse_args()


def panel_named(name):
    for panel in PANELS:
        if panel.name == name:
            return panel
    raise argparse.ArgumentTypeError("there is no panel '%s'; accepted are %s" % (
        name, ", ".join(panel.name for panel in PANELS)))


def show_panel(panel, whole_listing):
    """Both bibs on a panel that was opened anew."""
    heading = "%s inch panel, %d x %d dots" % (panel.name, panel.width, panel.height)
    say("\n\n%s\n%s\n" % (heading, "=" * len(heading)))
    file = settings.read(panel)
    say(listing(panel, file, whole_listing))
    bib17, bib18 = digits.bib(panel, "17"), digits.bib(panel, "18")
    second = digits.boxes(panel, "18")[1]
    glass, clock = Glass(panel), Clock(FIRST_TICK)
    with Replay() as replay:
        accepted(replay, "open 2 " + file.hex())

        upload_bitmap(replay, panel, 1, bib17)
        say("\nBib 17: uploaded to slot 1 as a bitmap. %s\n" % summary_text(replay, 1))
        show_bib(replay, glass, clock, 1, "17", bib17, {panel.frames + 5: 50})  # oversleeps in stage 2

        clock.sleep(BETWEEN_BIBS)
        chunks = fill(replay, panel, 2, bib17)
        upload_region(replay, 2, bib18, second)
        say("\nBib 18: slot 2 got the bitmap of bib 17 in %d chunks, then its second digit as a region of %d x %d dots.\n%s\n" % (
            chunks, *second[2:], summary_text(replay, 2)))
        show_bib(replay, glass, clock, 2, "18", bib18, {2 * panel.frames: 20})  # oversleeps before stage 3


def listing(panel, file, whole):
    """What the proved program lists of a settings file: the start steps beside the stop steps, or how many there are."""
    ran = subprocess.run([LISTING_PROGRAM], input=file, stdout=subprocess.PIPE)
    lines = ran.stdout.decode("ascii").splitlines()
    stop = next((k for k, line in enumerate(lines) if line.startswith("stop ")), None)
    if stop is None:
        raise Unexpected("the listing of %s is '%s'" % (settings.path(panel), " ".join(lines)))
    title = "Settings file %s, %d bytes" % (settings.path(panel), len(file))
    if not whole:
        return "%s: %s, %s" % (title, lines[1], lines[stop])
    return "%s, as settings_list reads it:\n\n%s" % (title, side_by_side(lines[1:stop], lines[stop:], "    %-38s%s"))


def upload_bitmap(replay, panel, slot, drawn):
    accepted(replay, "bitmap %d %s" % (slot, bitmap.write(panel, drawn).hex()))


def fill(replay, panel, slot, drawn):
    """A bitmap by chunks. Gives back their number."""
    file = bitmap.write(panel, drawn)
    starts = range(0, len(file), CHUNK)
    accepted(replay, "begin %d" % slot)
    for at in starts:
        accepted(replay, "chunk " + file[at:at + CHUNK].hex())
    accepted(replay, "finish")
    return len(starts)


def upload_region(replay, slot, drawn, box):
    accepted(replay, "region %d %d %d %d %d %s" % (slot, *box, digits.cut_out(drawn, *box).hex()))


def summary_text(replay, slot):
    """What the driver's summary tells of a slot that is not blank."""
    return "Summary of slot {}: {:,} black dots, in rows {} to {}.".format(slot, *map(int, accepted(replay, "summary %d" % slot).split()))


def show_bib(replay, glass, clock, slot, number, drawn, oversleep):
    """Runs a slot, checks what the board shows then, and prints it."""
    panel, update = glass.panel, Update(glass)
    with Progress("%s inch panel, bib %s" % (panel.name, number), STAGES * panel.frames) as progress:
        update.run(replay, clock, slot, oversleep, progress.show)
    check(replay, glass, update, drawn)
    say(board_text(glass.picture(), timeline(update)))
    say("{:,} bytes sent. Sums from {} to {}; sums at rest: white dots 0, black dots {}.".format(
        update.bytes_sent(), glass.lowest, glass.highest, -panel.frames))
    say("The board shows what was drawn, and what the driver's own writer and summary tell of slot 0.")
    say("%s, its stages one by one: %s" % write_pictures(glass, update, "%s-bib-%s" % (panel.name, number)))


def check(replay, glass, update, drawn):
    """The glass must show what the driver's writer and its summary tell of slot 0, and what was drawn; every dot must be at rest."""
    panel, shown = glass.panel, glass.picture()
    slot0 = bitmap.read(panel, bytes.fromhex(accepted(replay, "write 0")))
    for holds, trouble in (
            (update.lines == STAGES * panel.frames * panel.height, "was sent %d lines" % update.lines),
            (shown == slot0, "does not show the picture of slot 0"),
            (summary_of(shown) == accepted(replay, "summary 0"), "has other black dots than the summary of slot 0 tells"),
            (shown == drawn, "does not show the picture that was drawn"),
            ({total for sums in glass.sums for total in sums} <= {0, -panel.frames}, "has dots that are not at rest"),
            (-panel.frames <= glass.lowest and glass.highest <= 0, "had sums from %d to %d" % (glass.lowest, glass.highest))):
        if not holds:
            raise Unexpected("the %s inch panel %s" % (panel.name, trouble))


def summary_of(picture):
    """The black dots of a picture that is not blank, and the first and last row with one."""
    rows = [digits.bits(row).count("0") for row in picture]
    black = [y for y, dots in enumerate(rows) if dots]
    return "%d %d %d" % (sum(rows), black[0], black[-1])


def write_pictures(glass, update, name):
    """Writes the board as it is, and as it was at the end of each stage. Gives back the two files' names."""
    paths = "%s/%s.png" % (FOLDER, name), "%s/%s-stages.png" % (FOLDER, name)
    for path, boards in zip(paths, ([glass.sums], update.stage_ends)):
        with open(path, "wb") as file:
            file.write(picture.png(boards, -glass.panel.frames))
    return paths


if __name__ == "__main__":
    try:
        main()
    except OutputClosed:
        discard_output()
    except BrokenPipeError:
        sys.exit("The demo failed: %s ended too early." % PROGRAM)
    except (Unexpected, OSError) as trouble:
        sys.exit("The demo failed: %s." % trouble)
    except KeyboardInterrupt:
        sys.exit(130)
