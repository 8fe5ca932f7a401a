"""The trainees' updates as bytes: lines of the proved driver, sent as often and in such an order as a trainee's driver would. What
they push each dot must be what the model says."""
from functools import lru_cache

from ghosting import bibs, model, real
from simulator.panel import Glass

EACH = 3  # updates of each driver


@lru_cache(maxsize=None)
def frames_of(shown, new):
    """The lines of one frame in each of the four stages, in an update from one bib to another."""
    lines, frame = real.lines_of(shown, new), real.ROWS
    second = len(lines) // 2
    return [lines[second + frame * model.N * stage:][:frame] for stage in range(4)]


def sent(shown, bib, counts, copied, redraw):
    """The lines of a trainee's update."""
    old, new = frames_of(bib if copied else shown, bib), frames_of(shown, bib)
    redrawn = new if redraw is None else frames_of(shown, model.next_bib(bib))
    for stage in range(4):
        for frame in range(counts[stage]):
            late = redraw is not None and model.N * stage + frame >= redraw
            yield from (old if stage < 2 else redrawn if late else new)[stage]


def compare_update(shown, bib, counts, copied=False, redraw=None):
    glass = Glass(bibs.PANEL)
    for line in sent(shown, bib, counts, copied, redraw):
        glass.send(line)
    then = bib if redraw is None else model.next_bib(bib)
    net = model.histories(shown, bib, then)(model.paths(counts, copied, redraw).net)
    real.expect(glass.sums, bibs.dot_rows(net), "pushes of a trainee's update from bib %d to %d" % (shown, bib))


def compare(season, timed, skipped):
    """Compares some updates of each driver, given the frames of two of them. Answers how many, or raises Differs."""
    whole = (model.N,) * 4
    uneven = [[u for u in range(1, len(season) - 1) if len(set(frames[u].counts)) > 1][:EACH] for frames in (timed, skipped)]
    redrawn = [u for u in range(1, len(season)) if (season[u].redraw or 0) > 2 * model.N][:EACH]
    cases = [(u, frames[u].counts, False, None) for us, frames in zip(uneven, (timed, skipped)) for u in us]
    cases += [(u, whole, True, None) for u in range(1, 1 + EACH)]
    cases += [(u, whole, False, season[u].redraw) for u in redrawn]
    for u, counts, copied, redraw in cases:
        compare_update(season[u - 1].bib, season[u].bib, counts, copied, redraw)
    return len(cases)
