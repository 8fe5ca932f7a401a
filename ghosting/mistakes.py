"""The mistakes that strike at one moment and not over a season: ticks compared with "less than", pauses by a timetable, and
x + width summed in 32 bits."""
from bisect import bisect_left
from collections import namedtuple

from ghosting import bibs, model

TICKS = 2 ** 32
DAY = 24 * 60 * 60 * 1000
WRAP_UPDATES = 20  # the updates in which a wrap is tried at every ms

# ---- ticks compared with "less than"

# still: the frame before which the board stands still, or None; early: by how many ms the earliest frame goes too early
Wrapped = namedtuple("Wrapped", "still early")


def wrapped_update(update, wrap):
    """An update during which the counter wraps, `wrap` ms after its first line. The trainee waits while `now < due`."""
    now, early = 0, 0
    for frame in range(model.FRAMES):
        due = (model.FRAME * frame - wrap) % TICKS
        while (now - wrap) % TICKS < due:
            pause = due - (now - wrap) % TICKS
            if pause > model.FRAME * model.FRAMES:
                return Wrapped(frame, early)
            now += pause + update.frames[frame]
        early = max(early, model.FRAME * frame - now)
        now += model.SEND
    return Wrapped(None, early)


def refused_after(update, wrap):
    """Whether the first reading after the wrap is less than the last one before it, which this trainee takes for a clock that
    went back."""
    begins = model.begins_on_schedule(update.frames)
    readings = [reading for begin in begins for reading in (begin, begin + model.SEND)]
    readings.append(max(model.FRAME * model.FRAMES, readings[-1]))
    k = bisect_left(readings, wrap)
    return (readings[k] - wrap) % TICKS < (readings[k - 1] - wrap) % TICKS


# tried: how many wraps; still, early: in how many of them the board stands still, or only some frames go early; most: the most ms
# early; refused: in how many the second trainee refuses every later reading
Wraps = namedtuple("Wraps", "tried still early most refused")


def wraps(season):
    """Every wrap that can fall between the first line of an update and the end of its last frame, for some updates."""
    places = range(1, model.FRAME * model.FRAMES)
    tried = [(update, wrap) for update in season[:WRAP_UPDATES] for wrap in places]
    found = [wrapped_update(*one) for one in tried]
    going = [one.early for one in found if one.still is None]
    refused = sum(refused_after(*one) for one in tried)
    return Wraps(len(tried), len(found) - len(going), sum(early > 0 for early in going), max(going), refused)


# ---- pauses by a timetable

def timetable_pauses(pauses, late, delay):
    """Each pause as ordered and as the panel gets it, where every write has a moment in a timetable. What comes before the first
    pause is `delay` ms later than its own moment."""
    planned, now, given = 0, delay, []
    for pause, held_up in zip(pauses, late):
        planned += pause
        then = now if now >= planned else planned + held_up
        given.append((pause, then - now))
        now = then
    return given


def season_pauses(season):
    """The pauses of a whole season: those between the start writes, and those after the last frame."""
    given = []
    for update in season:
        over = model.begins_on_schedule(update.frames)[-1] + model.LAST_LINE - model.FRAME * model.FRAMES
        given += timetable_pauses(model.START_PAUSES, update.start, 0)
        given += timetable_pauses(model.STOP_PAUSES, update.stop, max(over, 0))
    return given


# ---- x + width in 32 bits

# x and width of regions of one row, and a payload for the two that are right or nearly so
REGIONS = ((127, 1, "80"), (127, 2, "C0"), (1, 4294967295, "-"), (8, 4294967290, "-"), (100, 4294967200, "-"))


def passes_in_32_bits(x, width):
    return width >= 1 and (x + width) % TICKS <= bibs.PANEL.width


def bytes_after_the_store(x, width):
    """The bytes after the memory of slots 0 and 1 that a region of row 0 in slot 1 reaches, with 32 bits for a dot's number."""
    slot = bibs.PANEL.width // 8 * bibs.PANEL.height
    return max((min(x + width, TICKS) - 1) // 8 + 1 - slot, 0)
