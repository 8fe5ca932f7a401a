"""The timeline of a run as text."""
from demo.update import WRAP

FRAME_MS = 30


def timeline(update):
    """Lines of text: a moment in ms after F and what happened then. A moment that stands in the line above is left out."""
    first = next(event.moment for event in update.events if event.kind == "line")
    text, above = [" ms after F"], None
    for moment, what in sorted(rows(update), key=lambda row: row[0]):
        text.append("%6s  %s" % ("" if moment == above else after(moment - first), what))
        above = moment
    return text


def after(milliseconds):
    return format(milliseconds, "+d") if milliseconds else "0"


def rows(update):
    """All that is worth a line, as moment and text; those of one moment in the order in which they are to stand."""
    events = update.events
    lines = [k for k, event in enumerate(events) if event.kind == "line"]
    began, last, ended = events[0].moment, events[lines[-1]].moment, events[-1].moment
    frames = [events[k].moment for k in lines[::update.glass.panel.height]]
    return ([(began, "slot %d starts at tick %d" % (events[0].value, began % WRAP)), (began, steps(events[:lines[0]]))]
            + stages(update.glass.panel, frames) + late_frames(frames) + wraps(events)
            + [(update.turned, "the board has turned over")]
            + [(last, "last line"), (last, steps(events[lines[-1]:])), (ended, "done at tick %d" % (ended % WRAP))])


def steps(events):
    """The writes and the wait answers among these events."""
    waits = [str(event.value) for event in events if event.kind == "wait"]
    return "%d writes, waits %s ms" % (sum(event.kind == "write" for event in events), "+".join(waits))


def stages(panel, frames):
    """Where each stage begins, from the moments at which the frames began."""
    n = panel.frames
    return [(frames[i], "%sstage %d, %d frames, %d lines" % ("" if i else "F: ", i // n + 1, n, n * panel.height))
            for i in range(0, len(frames), n)]


def late_frames(frames):
    """Where frames begin to be late, and where they are on time again. Frame i is due 30 i ms after F."""
    late = [moment - frames[0] - FRAME_MS * i for i, moment in enumerate(frames)]
    found = []
    for i in range(1, len(frames)):
        if late[i] and not late[i - 1]:
            found.append((frames[i], "frame %d begins %d ms late" % (i, late[i])))
        if late[i - 1] and not late[i]:
            found.append((frames[i], "frame %d begins on time again" % i))
    return found


def wraps(events):
    return [(event.moment, "tick wraps: %d, then %d" % (before.moment % WRAP, event.moment % WRAP))
            for before, event in zip(events, events[1:]) if before.moment // WRAP != event.moment // WRAP]
