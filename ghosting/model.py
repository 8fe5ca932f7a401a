"""What a season of updates does to the dots' sums, and when the board turns over, for this driver and for the trainees' drivers.

Times are ms after F, the moment of an update's first line. A driver that has to wait sleeps, and wakes late."""
from collections import namedtuple
from functools import lru_cache
from itertools import accumulate, product
from operator import add, itemgetter, sub
from random import Random

from ghosting import bibs

N = bibs.PANEL.frames
FRAMES = 4 * N
FRAME = 30  # ms from one frame to the next
STAGE = FRAME * N
SEND = 12  # ms for the 96 lines of a frame: 63 bytes each at the slowest allowed clock of 4 MHz, 8 lines in a ms
LAST_LINE = SEND - 1  # ms from a frame's first line to its last, in tick readings
ON_TIME = FRAME * (FRAMES - 1) + LAST_LINE  # when the last line goes out if no frame is late

DAYS, BIBS = 100, 90
SEED = 20260115
SHORT_LATE, LONG_LATE = (0, 3), (5, 40)  # by how many ms a wake-up is late, as a rule and where another task holds it up
LONG = 0.02  # the share of wake-ups that are held up
REDRAWN = 1 / BIBS  # the share of updates during which the start office redraws the picture: once a race day

# The settings file of the boards: register and data, or a wait in ms.
START = (("01", "00000000000FFF00"), ("04", "03"), 5, ("05", "01"), 30, ("05", "03"), 30, ("05", "0F"), 30, ("02", "24"))
STOP = (225, ("05", "02"), 120, ("05", "00"), 80)
START_PAUSES, STOP_PAUSES = ([step for step in steps if isinstance(step, int)] for steps in (START, STOP))

# ---- the season

# bib: what the update shows; frames, stages, start, stop: by how much each wake-up is late; redraw: None, or the frame before which
# the office puts another bib into the same slot
Update = namedtuple("Update", "bib frames stages start stop redraw")


def wake_up(random, long):
    """How many ms a wake-up is late, all of its range equally likely."""
    least, most = LONG_LATE if random.random() < long else SHORT_LATE
    return least + int((most - least + 1) * random.random())


def make_season(seed=SEED, long=LONG, days=DAYS):
    """Every update of a season: bibs 1 to 90 on each race day, and after the last race one to white."""
    random = Random(seed)
    order = list(range(1, BIBS + 1)) * days + [bibs.BLANK]
    updates = []
    for bib in order:
        groups = [[wake_up(random, long) for _ in range(size)] for size in (FRAMES, 4, len(START_PAUSES), len(STOP_PAUSES))]
        redraw = int(FRAMES * random.random()) if random.random() < REDRAWN and bib else None
        updates.append(Update(bib, *groups, redraw))
    return updates


# ---- the frames of an update: how many each stage gets, and when the last line goes out

Frames = namedtuple("Frames", "counts last")


def begins_on_schedule(late):
    """This driver: frame i may begin from F + 30i, late frames follow without a gap, and none is skipped."""
    begins, free = [], 0
    for i in range(FRAMES):
        due = FRAME * i
        begin = free if i == 0 or free >= due else due + late[i]
        begins.append(begin)
        free = begin + SEND
    return begins


def on_schedule(update):
    return Frames((N,) * 4, begins_on_schedule(update.frames)[-1] + LAST_LINE)


def begins_from_wake_time(late):
    """The next frame is due 30 ms after the moment of waking."""
    return list(accumulate(late[1:], lambda begin, held_up: begin + FRAME + held_up, initial=0))


def from_wake_time(update):
    return Frames((N,) * 4, begins_from_wake_time(update.frames)[-1] + LAST_LINE)


def timed_stage(began, late, goes_on):
    """Repeats a frame until a stage's timer has run out: the number of frames, and when the last of them began and was over."""
    count, now = 0, began
    while True:
        last, count = now, count + 1
        now += FRAME + next(late)
        if not goes_on(now - began):
            return count, last, now


def by_timer(update, goes_on):
    late, now, counts = iter(update.frames), 0, []
    for stage in range(4):
        count, last, over = timed_stage(now, late, goes_on)
        counts.append(count)
        now = over if over >= now + STAGE else now + STAGE + update.stages[stage]
    return Frames(tuple(counts), last + LAST_LINE)


def by_published_timer(update):
    """The published loop: another frame goes out if it would be over before the stage time is."""
    return by_timer(update, lambda passed: passed + FRAME < STAGE)


def by_lenient_timer(update):
    """Another frame goes out if the stage time is not over yet."""
    return by_timer(update, lambda passed: passed < STAGE)


def skipping(update):
    """On waking, the frame whose turn it is by the clock: one whose 30 ms have gone by is left out."""
    counts, now, last = [0] * 4, 0, 0
    while now < FRAME * FRAMES:
        frame = now // FRAME
        counts[frame // N] += 1
        last, now = now, now + SEND
        following = frame + 1
        if following < FRAMES and now < FRAME * following:
            now = FRAME * following + update.frames[following]
        elif following == FRAMES:
            break
    return Frames(tuple(counts), last + LAST_LINE)


def lateness(frames):
    """How many ms after the long beep the last line of each update in a race goes out."""
    return [made.last - ON_TIME for made in frames[:-1]]


# ---- the sums of the dots

PUSH = ((1, -1), (0, 1), (0, -1), (-1, 1))  # of stages 1 to 4, where the picture is black and where it is white

# For a dot of each kind of history, by its shown colour, its new one and the one that it is redrawn to (0 to 7, first colour high):
# net is what an update adds to its sum; lowest and highest are how far the sum goes in between.
Paths = namedtuple("Paths", "net lowest highest")


def path(steps):
    """Of a dot that is pushed so often to one side, then so often to another, and so on."""
    total = lowest = highest = 0
    for pushes in steps:
        total += pushes
        lowest, highest = min(lowest, total), max(highest, total)
    return total, lowest, highest


@lru_cache(maxsize=None)
def paths(counts, copied=False, redraw=None):
    """What an update with so many frames in its stages does. `copied`: stages 1 and 2 look at the new picture too. `redraw`: the
    frame before which the picture is redrawn."""
    made = []
    for shown, new, redrawn in product((0, 1), repeat=3):
        steps = [count * PUSH[stage][new if copied else shown] for stage, count in enumerate(counts[:2])]
        for stage in (2, 3):
            before = counts[stage] if redraw is None else min(max(redraw - N * stage, 0), counts[stage])
            steps += [before * PUSH[stage][new], (counts[stage] - before) * PUSH[stage][redrawn]]
        made.append(path(steps))
    return Paths(*zip(*made))


@lru_cache(maxsize=None)
def histories(shown, new, redrawn):
    """Takes, from a value for each of the eight histories, that of each kind of dot in an update from one bib to another."""
    return itemgetter(*(4 * a + 2 * b + c for a, b, c in zip(bibs.colours(shown), bibs.colours(new), bibs.colours(redrawn))))


@lru_cache(maxsize=None)
def at_rest(bib):
    """The sum of each kind of dot at rest, as the rules have it: 0 where it is white, -N where it is black."""
    return [0 if colour else -N for colour in bibs.colours(bib)]


def next_bib(bib):
    return bib % BIBS + 1


# days: the lowest and highest sum of any dot on each race day; off: by how much a dot at rest was off at most; day: the race day on
# which that first came to N, or None; sums: of each kind of dot at the end
Sums = namedtuple("Sums", "days off day sums")


def follow(season, frames, copied=False, redraws=False):
    """The sums over a season, where `frames` gives the frames of each update."""
    sums, shown = at_rest(bibs.BLANK), bibs.BLANK
    lows, highs, offs = [], [], []
    for update, (counts, _) in zip(season, frames):
        redraw = update.redraw if redraws else None
        then = update.bib if redraw is None else next_bib(update.bib)
        made, of_kinds = paths(counts, copied, redraw), histories(shown, update.bib, then)
        lows.append(min(map(add, sums, of_kinds(made.lowest))))
        highs.append(max(map(add, sums, of_kinds(made.highest))))
        sums = list(map(add, sums, of_kinds(made.net)))
        offs.append(max(map(abs, map(sub, sums, at_rest(then)))))
        shown = then
    days = [(min(lows[d:d + BIBS]), max(highs[d:d + BIBS])) for d in range(0, len(season) - 1, BIBS)]
    first = next((u // BIBS + 1 for u, off in enumerate(offs) if off >= N), None)
    return Sums(days, max(offs), first, sums)
