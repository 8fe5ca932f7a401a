"""Calls of fills for a script: a file is begun, comes by chunks, and is finished."""
from tests.replay import cuts, inputs
from tests.replay.script import any_panel, any_slot, any_tick, hexadecimal


def begin_on(script, slot):
    """Begins a fill, and plans its chunks."""
    rng, panel = script.rng, any_panel(script)
    if script.call(f"begin {slot}") == "0":
        file = (cuts.damaged if rng.random() < 0.3 else inputs.bitmap)(rng, panel)
        script.coming = cuts.cut(rng, panel, file, rng.choice(cuts.FEW))


def begin(script):
    begin_on(script, any_slot(script))


def chunk(script):
    """The next one; any bytes where none is planned."""
    rng = script.rng
    piece = script.coming[0] if script.coming else rng.randbytes(rng.choice((0, 1, 2, 62, 64)))
    if script.call("chunk " + hexadecimal(rng, piece)) == "0":
        script.coming = script.coming[1:]


def empty_chunk(script):
    script.call("chunk -")


def wrong_chunk(script):
    script.call("chunk " + hexadecimal(script.rng, script.rng.randbytes(script.rng.choice((1, 2, 62, 6398, 8000)))))


def finish(script):
    script.call("finish")


def cancel(script):
    script.call("cancel")


def on_slot_of_fill(script):
    """An upload, a begin or a start on the slot that is being filled."""
    rng, fill, panel = script.rng, script.store.fill, any_panel(script)
    slot = fill.slot if fill else any_slot(script)
    way = rng.randrange(4)
    if way == 0:
        begin_on(script, slot)
    elif way == 1:
        script.call(f"start {slot} {any_tick(script)}")
    elif way == 2:
        file = rng.choice((inputs.bitmap, inputs.damaged_bitmap))(rng, panel)
        script.call(f"bitmap {slot} {hexadecimal(rng, file)}")
    else:
        place = rng.choice((inputs.region, inputs.faulty_region))(rng, panel)
        script.call("region %d %d %d %d %d %s" % (slot, *place, rng.choice(("-", "80", "FF"))))


def begin_on_slot_of_run(script):
    run = script.store.running
    begin_on(script, run.slot if run else any_slot(script))


ASIDE = (on_slot_of_fill,) * 8 + (begin,) * 4 + (begin_on_slot_of_run,) * 2 + (empty_chunk,) * 4 + (finish, cancel, wrong_chunk)
ANY = (begin, chunk, empty_chunk, wrong_chunk, finish, cancel, on_slot_of_fill)


def next_call(script):
    """The next call of the fill under way, or a begin; now and then one beside it."""
    if script.store.panel is None:
        script.rng.choice(ANY)(script)
    elif script.rng.random() < 0.25:
        script.rng.choice(ASIDE)(script)
    elif script.store.fill is None:
        begin(script)
    elif script.coming:
        chunk(script)
    else:
        finish(script)


def send(script, slot, pieces):
    """A whole fill, up to the chunk that is refused. The slot is looked at on the way, some four times, and afterwards."""
    rng = script.rng
    if script.call(f"begin {slot}") != "0":
        return
    for piece in pieces:
        if script.call("chunk " + hexadecimal(rng, piece)) != "0":
            break
        if rng.random() * len(pieces) < 4:
            script.call(f"write {slot}")
    if script.store.fill or rng.random() < 0.3:
        script.call("finish")
    script.call(f"write {slot}")


def end(script):
    """Brings the fill under way to an end, one way or another."""
    rng = script.rng
    while script.store.fill and script.coming and rng.random() < 0.9:
        chunk(script)
    if script.store.fill:
        script.call("cancel" if script.coming else rng.choice(("finish", "finish", "cancel")))
