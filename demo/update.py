"""Shows a slot as a firmware loop does: poll, send what is handed out, sleep where the driver says wait."""
from collections import namedtuple

STAGES = 4
WRAP = 2 ** 32             # a tick reading is the clock's milliseconds modulo this
MICROSECONDS_PER_BYTE = 1  # on a bus of 8 MHz

# kind: start, write, line, wait or done. value: a start's slot, the bytes of a write or line, a wait's ms, or 0
Event = namedtuple("Event", "moment kind value")


class Unexpected(Exception):
    """The driver did not answer as it must."""


class Clock:
    """The board's clock, simulated. Its milliseconds do not wrap."""

    def __init__(self, milliseconds):
        self.microseconds = 1000 * milliseconds

    def now(self):
        return self.microseconds // 1000

    def sleep(self, milliseconds):
        self.microseconds += 1000 * milliseconds

    def send(self, handed):
        self.microseconds += MICROSECONDS_PER_BYTE * len(handed)


class Update:
    """One run: what happened when, and what the glass looked like."""

    def __init__(self, glass):
        self.glass = glass
        self.events = []
        self.lines = 0
        self.stage_ends = []  # the dots' sums at the end of each stage
        self.turned = None    # when the last dot came nearer to the colour that it has in the end
        self.colours = nearer_colours(glass)

    def run(self, replay, clock, slot, oversleep, progress):
        """`oversleep` says before which frames the loop sleeps too long, and by how many ms."""
        accepted(replay, "start %d %d" % (slot, clock.now() % WRAP))
        self.note(clock.now(), "start", slot)
        while self.events[-1].kind != "done":
            moment = clock.now()
            kind, value = polled(replay, moment)
            if kind == "wait":
                self.note(moment, kind, value)
                clock.sleep(value + oversleep.get(self.frame_ahead(), 0))
            else:
                self.note(moment, kind, len(value))
                self.glass.send(value)
                clock.send(value)
            if kind == "line":
                self.lines += 1
                if self.frame_ahead() is not None:
                    self.frame_sent(moment, self.frame_ahead())
                    progress(self.frame_ahead())

    def note(self, moment, kind, value):
        self.events.append(Event(moment, kind, value))

    def frame_ahead(self):
        """The frame that the next line begins, which is also how many were sent; None in the middle of a frame."""
        frame, row = divmod(self.lines, self.glass.panel.height)
        return frame if row == 0 else None

    def frame_sent(self, moment, frames):
        colours = nearer_colours(self.glass)
        if colours != self.colours:
            self.colours, self.turned = colours, moment
        if frames % self.glass.panel.frames == 0:
            self.stage_ends.append(list(self.glass.sums))

    def bytes_sent(self):
        return sum(event.value for event in self.events if event.kind in ("write", "line"))


def nearer_colours(glass):
    """For each dot whether it is nearer to white, a sum of 0, than to black, a sum of minus the frames of a stage."""
    return [[2 * total > -glass.panel.frames for total in sums] for sums in glass.sums]


def polled(replay, moment):
    """The answer to a poll, which must not be a refusal."""
    try:
        kind, value = replay.poll(moment)
    except ValueError:
        raise Unexpected("a poll got no answer") from None
    if kind == "refused":
        raise Unexpected("a poll at tick %d was refused with %d" % (moment % WRAP, value))
    return kind, value


def accepted(replay, call):
    """Makes a call that must be accepted, and gives back what follows the 0 of its answer."""
    number, _, rest = replay.call(call).partition(" ")
    if number != "0":
        raise Unexpected("the answer to '%s' was '%s'" % (call.split()[0], number))
    return rest
