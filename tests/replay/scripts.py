"""Random scripts of calls for the replay program, of several kinds."""
from collections import namedtuple

from tests.bitmaps.reference import HEADER
from tests.panels import PANELS
from tests.replay import calls, cuts, fills, inputs, summaries
from tests.replay.script import BACK, Script

# chances of a call that does not move the run on, of a poll before a thing is due, of a late poll, and of a delay inside a
# frame; and the most milliseconds late
Habits = namedtuple("Habits", "other early late inside most_late")

PUNCTUAL = Habits(0.005, 0.5, 0, 0, 1)
LATE = Habits(0.005, 0.3, 0.3, 0.002, 40)
VERY_LATE = Habits(0.01, 0.3, 0.1, 0.003, 400)
FAR = Habits(0.005, 0.2, 0.1, 0.0005, BACK - 1)
HABITS = (PUNCTUAL, LATE, VERY_LATE, FAR)
FILLING = Habits(0.03, 0.3, 0.1, 0.001, 40)


def lateness(rng, habits):
    most = habits.most_late
    return min(most, rng.choice((1, 29, 30, 31, most, most - 1, rng.randint(1, most))))


def next_step(script, habits):
    """The step of a poll: early, when the next thing is due, or late."""
    rng = script.rng
    to_go = script.store.running.to_go()
    if to_go == 0:
        return lateness(rng, habits) if rng.random() < habits.inside else 0
    if rng.random() < habits.early:
        return rng.choice((to_go - 1, to_go - 1, 0, rng.randrange(to_go)))
    return min(BACK - 1, to_go + (lateness(rng, habits) if rng.random() < habits.late else 0))


def poll_on(script, habits, until=None, other=calls.other_call):
    """Polls to the end of the run, or until so many things were handed out."""
    run, rng = script.store.running, script.rng
    while script.store.running is run and (until is None or run.next < until):
        chance = rng.random()
        if chance < habits.other:
            other(script)
        else:
            script.poll(next_step(script, habits), rng.choice(("", " 117", " 118", " 6398")) if chance < 0.05 else "")


def some_calls(script):
    for _ in range(script.rng.randint(3, 10)):
        calls.other_call(script)


# kinds of scripts

def there_and_back(script, panel):
    """All dots go to black and back to white, polled when due."""
    calls.open_store(script, panel, n=1)
    for colour in ("00", "FF"):
        script.call(f"region 1 0 0 {panel.width} {panel.height} {colour * calls.picture_bytes(panel)}")
        script.call(f"start 1 {calls.any_tick(script)}")
        while script.store.running:
            script.poll(script.store.running.to_go())
    calls.write_all(script)


def whole_runs(script, panel, runs):
    calls.open_store(script, panel)
    for _ in range(runs):
        calls.upload_and_start(script)
        poll_on(script, script.rng.choice(HABITS))
        calls.write_all(script)


def filled_runs(script, panel):
    """Runs, and fills of other slots between their polls."""
    calls.open_store(script, panel, n=script.rng.randint(2, 7))
    for _ in range(2):
        calls.upload_and_start(script)
        poll_on(script, FILLING, other=fills.next_call)
        calls.write_all(script)


def cut_fills(script, panel):
    """Good files with both orders of the palette, cut in every way; and cut once at each place of the header."""
    rng = script.rng
    calls.open_store(script, panel, n=2)
    for way in (cuts.every_byte, *cuts.FEW, *cuts.MANY):
        file = inputs.bitmap(rng, panel)
        for slot, order in ((1, file), (2, cuts.other_order(file))):
            fills.send(script, slot, cuts.cut(rng, panel, order, way))
    for place in range(HEADER + 2):
        fills.send(script, rng.randint(1, 2), cuts.cut_at(inputs.bitmap(rng, panel), [place]))


def damaged_fills(script, panel):
    """Files with a fault in each byte of the header, ones that mix good values, longer ones, and ones that end early."""
    rng = script.rng
    calls.open_store(script, panel, n=2)
    files = [*cuts.spoiled(rng, panel), *(cuts.damaged(rng, panel) for _ in range(40)), *(cuts.mixed(rng, panel) for _ in range(40))]
    for file in files:
        fills.send(script, rng.randint(1, 2), cuts.cut(rng, panel, file, rng.choice((cuts.every_byte_of_header, *cuts.FEW))))
    whole = inputs.bitmap(rng, panel)
    for pieces in ([whole, b"\0"], [whole + b"\0"], [whole, whole], [whole, b"", b"\0"], [whole[:-1], b"\0\0"]):
        fills.send(script, 1, pieces)
    for length in (0, 1, 2, HEADER - 1, HEADER, HEADER + 1, HEADER + panel.stride - 1, HEADER + panel.stride, len(whole) - panel.stride,
                   len(whole) - 1):
        for way in (cuts.nowhere, rng.choice(cuts.MANY)):
            script.call(f"bitmap 1 {whole.hex()}")
            fills.send(script, 1, cuts.cut(rng, panel, whole[:length], way))


def single_dots(script, panel):
    """One black dot in a white slot, at each place of a row, in each row and in the corners; then two of them; then the same in white
    in a black slot."""
    rng, width, height = script.rng, panel.width, panel.height
    calls.open_store(script, panel, n=1)
    places = [(x, y) for x in (0, width - 1) for y in (0, height - 1)]
    places += [(x, rng.randrange(height)) for x in range(width)] + [(rng.randrange(width), y) for y in range(height)]
    for around, dot in (("FF", "00"), ("00", "80")):
        script.call(f"region 1 0 0 {width} {height} {around * calls.picture_bytes(panel)}")
        for dots in (*([place] for place in places), *(rng.sample(places, 2) for _ in range(100))):
            for x, y in dots:
                script.call(f"region 1 {x} {y} 1 1 {dot}")
            for x, y in dots:
                script.call(f"region 1 {x} {y} 1 1 {'80' if dot == '00' else '00'}")


def far_first_line(script, panel):
    """Long steps among the start writes, so that F lies beyond 2^32."""
    start = inputs.every_register(script.rng, panel)
    calls.open_store(script, panel, inputs.joined(panel.code, start, inputs.stop_steps(script.rng, panel)))
    calls.upload_and_start(script)
    while script.store.running.stage() == 0:
        script.poll(BACK - script.rng.choice((1, 1, 1, 500)))
    poll_on(script, script.rng.choice((PUNCTUAL, LATE)))
    calls.write_all(script)


def after_abandon(script, slot):
    """What an abandon leaves possible: uploads, also to the run's slot, and the writer; and at the end an opening."""
    for text in (f"start {slot} 5", "start 0 5", f"start {script.store.slots + 1} 5", "poll 7", "poll 7 0", "abandon"):
        script.call(text)
    calls.upload(script, slot)
    some_calls(script)
    calls.write_all(script)
    if script.rng.random() < 0.4:
        calls.refused_opening(script)
        some_calls(script)


def things_before(script, place):
    """How many things are handed out before the place: 0 among the start writes, 1 to 4 in a stage, 5 before the last line, 6 to
    8 before the first stop write, among them and before done."""
    rng, run = script.rng, script.store.running
    if place == 0:
        return rng.randrange(run.first_line)
    if place <= 4:
        stage = run.panel.frames * run.panel.height
        return run.first_line + (place - 1) * stage + rng.randrange(stage - 1)
    return (run.first_stop - 1, run.first_stop, rng.randrange(run.first_stop + 1, run.last_thing), run.last_thing)[place - 5]


def abandoned(script, panel, place):
    """A run abandoned in this place, and what can be called then. After it a piece of a run that an opening ends."""
    rng = script.rng
    calls.open_store(script, panel, inputs.with_all_registers(rng, panel))
    calls.upload_and_start(script)
    run = script.store.running
    poll_on(script, rng.choice(HABITS), things_before(script, place))
    script.abandon()
    after_abandon(script, run.slot)
    calls.open_store(script)
    calls.upload_and_start(script)
    poll_on(script, rng.choice(HABITS), rng.randint(0, 400))
    rng.choice((calls.open_store, calls.refused_opening))(script)
    some_calls(script)


def reopened(script, panel, place):
    """An opening in the middle of a run, and a piece of a run in the new store."""
    calls.open_store(script, panel, inputs.with_all_registers(script.rng, panel))
    calls.upload_and_start(script)
    poll_on(script, script.rng.choice(HABITS), things_before(script, place))
    if place % 2:
        calls.refused_opening(script)
        some_calls(script)
    calls.open_store(script)
    calls.write_all(script)
    calls.upload_and_start(script)
    poll_on(script, script.rng.choice(HABITS), 300)


def any_calls(script, count):
    """Calls of all kinds in random order."""
    rng = script.rng
    some_calls(script)
    while len(script.calls) < count:
        if script.store.panel is None:
            rng.choice((calls.open_store, calls.open_store, calls.refused_opening, some_calls))(script)
        elif script.store.running:
            poll_on(script, rng.choice(HABITS), script.store.running.next + rng.choice((0, 1, 3, 30, 120)))
            some_calls(script)
            if rng.random() < 0.1:
                script.abandon()
        else:
            rng.choice((calls.region, calls.bitmap, calls.write, calls.summary, calls.start, calls.upload_and_start, fills.next_call,
                        some_calls))(script)
        if rng.random() < 0.05:
            rng.choice((calls.write_all, calls.open_store, calls.refused_opening))(script)
    calls.write_all(script)


def malformed_lines(script):
    """Lines that are no call, lines at the limit of length and numbers with zeros in front: before an opening, at rest, in a fill, in
    a run and after an abandon."""
    long_lines = ["bitmap 1 " + "0" * length for length in (16374, 16375, 16376, 16377, 30000)]
    long_lines += ["bitmap 10 " + "A" * length for length in (16373, 16374, 16375, 16376, 100000)]
    long_lines += ["region 1 0 0 128 96 " + "f" * length for length in (16363, 16364, 16365, 16366)]
    long_lines += ["poll " + "0" * 16378 + "7", "poll " + "0" * 16379 + "7", "poll " + "9" * 16379, " " * 16384, " " * 16385]
    long_lines += ["open 1 " + "0" * 16378, "write 000001 0000001597", "chunk " + "0" * 16379, "chunk " + "0" * 16380]
    long_lines += ["summary " + "0" * 16375 + "1", "summary " + "0" * 16376 + "1"]
    long_lines += ["chunk " + "0" * 16377, "chunk " + "0" * 16378]  # the last of them is a call, and ends a fill
    for prepare in ("abandon", "open 1 " + inputs.settings_file(script.rng, PANELS[0]).hex(), "begin 0001", "start 1 0", "abandon"):
        script.call(prepare)
        for text in (*calls.MALFORMED, *long_lines):
            script.call(text)
        calls.write_all(script)


def plan():
    """The kinds of scripts, with their arguments, in the order in which they are made."""
    for panel in PANELS:
        yield there_and_back, panel
        yield from [(whole_runs, panel, 2)] * (6 if panel.name == "2.7" else 9)
        yield filled_runs, panel
        yield cut_fills, panel
        yield damaged_fills, panel
        yield single_dots, panel
        yield far_first_line, panel
        for place in range(9):
            yield abandoned, panel, place
        for place in (2, 3, 4, 7):
            yield reopened, panel, place
    yield (malformed_lines,)
    yield from [(any_calls, 800)] * 170


def random_scripts(seed):
    for index, (kind, *arguments) in enumerate(plan()):
        script = Script(kind.__name__, f"{seed}-{index}", asking=True)
        kind(script, *arguments)
        yield script


PLACES_TO_REACH = (
    *(f"runs finished, {panel.name} inch" for panel in PANELS),
    "runs with a wait before the first line", "runs with waits alone to stop", "runs without stop steps",
    "runs with F beyond 2^32", "last lines by F + 120N", "last lines later than F + 120N",
    "bitmaps taken with white first", "bitmaps refused for the palette alone",
    *(f"fills finished, {panel.name} inch" for panel in PANELS), "fills finished, black first", "fills finished, white first",
    *(f"chunks taken, to {end}" for end in (
        "a field's end", "the inside of a field", "the header's end", "the inside of a row", "the padding", "one byte before a row's end",
        "a row's end", "the file's end")),
    *(f"fills refused at {at}" for at, _ in inputs.LOOKED_AT), "fills refused after the file's end", "fills finished too early",
    "fills cancelled", "dones while a slot is filled", "openings while a slot is filled", *summaries.PLACES,
    "polls 1 ms early", "polls over a wrap of the tick", "accepted steps of 2^31 - 1", "refused steps of 2^31",
    "refused steps of 2^32 - 1",
    "abandoned among the start writes", *(f"abandoned in stage {stage}" for stage in (1, 2, 3, 4)),
    "abandoned before the last line", "abandoned before the first stop write", "abandoned among the stop writes",
    "abandoned before done")
