"""Updates on the proved driver itself, call by call, beside the model of this driver: the same moments, and the same sum of every dot."""
from operator import add

from ghosting import bibs, model
from simulator.panel import Glass
from simulator.replay import Replay

ROWS = bibs.PANEL.height
LINES_IN_A_MS = ROWS // model.SEND
INTERVAL = 60000  # ms from one start to the next
UPDATES = 20
WRAP_IN = 5  # the update during which the tick counter wraps
WRAP_AT = 1000  # ms after that update's start


class Differs(Exception):
    """The proved driver and the model of it do not agree."""


def expect(found, wanted, what):
    if found == wanted:
        return
    if isinstance(found, list) and isinstance(wanted, list) and len(found) == len(wanted):
        k = next(k for k in range(len(found)) if found[k] != wanted[k])
        expect(found[k], wanted[k], "%s, number %d" % (what, k))
    raise Differs("%s: the driver gives %s, the model %s" % (what, found, wanted))


def settings():
    """The settings file of the boards, in hexadecimal digits."""
    def section(steps):
        return "%02X" % len(steps) + "".join("44%04X" % s if isinstance(s, int) else "57" + s[0] + s[1] for s in steps)
    return "01%02X" % bibs.PANEL.code + section(model.START) + section(model.STOP)


def open_store(replay):
    expect(replay.call("open 1 " + settings()), "0", "opening")


def upload(replay, bib):
    size = "%d %d" % (bibs.PANEL.width, bibs.PANEL.height)
    expect(replay.call("region 1 0 0 %s %s" % (size, b"".join(bibs.picture(bib)).hex())), "0", "upload of bib %d" % bib)


# ---- the model

def step_moments(steps, late, begin):
    """When each write among some steps goes out, and when the next thing after them may: a pause counts from the real moment."""
    moments, now, late = [], begin, iter(late)
    for step in steps:
        if isinstance(step, int):
            now += step + next(late)
        else:
            moments.append(now)
    return moments, now


def expected_moments(update):
    """When everything of an update is handed out, in ms after the start call."""
    writes, first = step_moments(model.START, update.start, 0)
    lines = [first + begin + row // LINES_IN_A_MS for begin in model.begins_on_schedule(update.frames) for row in range(ROWS)]
    stops, done = step_moments(model.STOP, update.stop, max(first + model.FRAME * model.FRAMES, lines[-1]))
    return writes + lines + stops + [done]


def sums_after(shown, new, frames):
    """The sum of each kind of dot in an update from one bib to another, once some of its frames are out."""
    counts = tuple(min(max(frames - model.N * stage, 0), model.N) for stage in range(4))
    return list(map(add, model.at_rest(shown), model.histories(shown, new, new)(model.paths(counts).net)))


# ---- the driver

class Board:
    """A board with the proved driver: it sleeps where a poll answers a wait, wakes late, and takes its time over each line."""

    def __init__(self, replay, tick):
        self.replay, self.tick = replay, tick
        self.glass = Glass(bibs.PANEL)
        self.shown = bibs.BLANK

    def update(self, update, at, redraw):
        """Runs an update from the moment `at` on: the moments of what is handed out. Compares the glass after each frame."""
        expect(self.replay.call("start 1 %d" % ((self.tick + at) % 2 ** 32)), "0", "start")
        late = {"start": iter(update.start), "frames": update.frames, "stop": iter(update.stop)}
        now, lines, moments = at * LINES_IN_A_MS, 0, []
        while True:
            kind, given = self.replay.poll(self.tick + now // LINES_IN_A_MS)
            if kind == "wait":
                now += LINES_IN_A_MS * (given + self.late(late, lines))
                continue
            moments.append(now // LINES_IN_A_MS - at)
            if kind == "done":
                self.shown = update.bib
                return moments
            if kind == "line":
                self.glass.send(given)
                now, lines = now + 1, lines + 1
                if lines % ROWS == 0:
                    expect(self.glass.sums, bibs.dot_rows(sums_after(self.shown, update.bib, lines // ROWS)), "sums")
                if lines == ROWS * redraw:
                    answers = [self.replay.call(line) for line in ("region 1 0 0 8 1 00", "bitmap 1 00")]
                    expect(answers, ["7", "7"], "uploads to the slot of the run under way")

    @staticmethod
    def late(late, lines):
        """By how much the wake-up is late that follows so many lines."""
        if lines == 0:
            return next(late["start"])
        return late["frames"][lines // ROWS] if lines < ROWS * model.FRAMES else next(late["stop"])


def compare(season, updates=UPDATES):
    """Runs the first updates of a season on the proved driver. The tick counter wraps during one of them, and during each the
    office tries to redraw the picture. Answers how many lines went out, or raises Differs."""
    tick = 2 ** 32 - INTERVAL * WRAP_IN - WRAP_AT
    with Replay() as replay:
        open_store(replay)
        board = Board(replay, tick)
        for u, update in enumerate(season[:updates]):
            upload(replay, update.bib)
            moments = board.update(update, INTERVAL * u, redraw=1 + 13 * u % (model.FRAMES - 1))
            expect(moments, expected_moments(update), "moments of update %d" % u)
            expect(board.glass.picture(), bibs.picture(update.bib), "the glass after update %d" % u)
        return board.glass.lines


def lines_of(*shown):
    """The lines that the proved driver hands out for updates to some bibs, one after another and never late."""
    with Replay() as replay:
        open_store(replay)
        lines, tick = [], 0
        for bib in shown:
            upload(replay, bib)
            expect(replay.call("start 1 %d" % tick), "0", "start")
            kind, given = replay.poll(tick)
            while kind != "done":
                tick += given if kind == "wait" else 0
                lines += [given] if kind == "line" else []
                kind, given = replay.poll(tick)
        return lines


def region_numbers(regions):
    """What the proved driver answers to one-row regions, given as x, width and a payload in hexadecimal digits."""
    with Replay() as replay:
        open_store(replay)
        return [int(replay.call("region 1 %d 0 %d 1 %s" % region)) for region in regions]
