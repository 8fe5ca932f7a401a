"""Single random calls for a script."""
from tests.bitmaps import reference as bitmaps
from tests.panels import PANELS
from tests.replay import cuts, fills, inputs, reference
from tests.replay.script import BACK, any_panel, any_slot, any_tick, hexadecimal, picture_bytes, right_length, wrong_length

# calls that open and end nothing

def region(script):
    rng, panel = script.rng, any_panel(script)
    x, y, width, height = inputs.region(rng, panel)
    payload = inputs.payload(rng, width, height)
    if rng.random() < 0.2:
        payload = inputs.faulty_payload(rng, width, height)
    if rng.random() < 0.25:
        x, y, width, height = inputs.faulty_region(rng, panel)
    script.call(f"region {any_slot(script)} {x} {y} {width} {height} {hexadecimal(rng, payload)}")


def bitmap(script):
    rng = script.rng
    file = rng.choice((inputs.bitmap, inputs.damaged_bitmap))(rng, any_panel(script))
    answer = script.call(f"bitmap {any_slot(script)} {hexadecimal(rng, file)}")
    if answer == "0":
        script.places["bitmaps taken with white first"] += file[54:57] == bitmaps.WHITE
    elif answer == "4":
        script.places["bitmaps refused for the palette alone"] += palette_alone(script.store.panel, file)


def palette_alone(panel, file):
    """Whether a refused file would be taken with another palette."""
    return bitmaps.read(panel, file[:54] + bitmaps.PALETTE + file[62:]) is not None


def upload_to_slot_of_run(script):
    run, rng = script.store.running, script.rng
    if run is None:
        region(script)
    elif rng.random() < 0.5:
        file = rng.choice((inputs.bitmap, inputs.damaged_bitmap))(rng, run.panel)
        script.call(f"bitmap {run.slot} {hexadecimal(rng, file)}")
    else:
        place = rng.choice((inputs.region, inputs.faulty_region))(rng, run.panel)
        script.call("region %d %d %d %d %d %s" % (run.slot, *place, rng.choice(("-", "80", "FF"))))


def slot_to_read(script):
    return script.rng.randint(0, script.store.slots) if script.rng.random() < 0.8 else any_slot(script)


def write(script):
    rng, slot = script.rng, slot_to_read(script)
    exact = bitmaps.file_length(any_panel(script))
    length = rng.choice((None, None, exact, exact - 1, min(exact + 1, 6398), 0, 6398, rng.randint(0, 6398)))
    script.call(f"write {slot}" if length is None else f"write {slot} {length}")


def summary(script):
    script.summary(slot_to_read(script))


def write_all(script):
    """Every slot with its summary, and one that is none."""
    for slot in range(script.store.slots + 2):
        script.call(f"write {slot}")
        script.summary(slot)


def start(script):
    script.call(f"start {any_slot(script)} {any_tick(script)}")


def poll(script):
    script.call(f"poll {any_tick(script)}")


def refused_poll(script):
    """A short output, a clock that went back, or both; without a run, anything."""
    rng = script.rng
    short = rng.choice((" 0", " 1", " 62", " 63", " 81", " 116", " 116"))
    if script.store.running is None:
        script.call(f"poll {any_tick(script)}{rng.choice(('', short))}")
        return
    way = rng.randrange(3)
    back = rng.choice((BACK, BACK + 1, 2 ** 32 - 1, 2 ** 32 - 30, rng.randrange(BACK, 2 ** 32)))
    script.poll(0 if way == 0 else back, "" if way == 1 else short)


def abandon(script):
    script.call("abandon")


def abandon_without_run(script):
    if script.store.running is None:
        abandon(script)


def wrong_memory(script):
    """Some calls with memory of a wrong length, which they leave as it is."""
    rng = script.rng
    if script.store.panel is None:
        script.call(f"lend {rng.randint(0, reference.MOST_MEMORY)}")
        return
    script.call(f"lend {wrong_length(script)}")
    for _ in range(rng.randint(1, 4)):
        rng.choice((region, bitmap, write, summary, start, poll, refused_poll, abandon, *fills.ANY))(script)
    script.call(f"lend {right_length(script)}")


MALFORMED = (
    "", " ", "?", "-",
    "open", "open 1", "open 1 ", "open -1 -", "open 1 0", "open 1 00 ", "open 1 0G", "open 1 00 x", "open 1 00 46465",
    "open  1 00", " open 1 00", "OPEN 1 00", "Open 1 00", "open 1 -- 5", "open 1 00-", "open 1 - 1 1", "open 4294967296 00",
    "open x 00", "opened 1 00",
    "lend", "lend ", "lend -", "lend 46465", "lend 1 2", "lend 1.5", "lend +1", "lend 0x10", "lend 1e3", "lend 4294967296",
    "region", "region 1 0 0 1 1", "region 1 0 0 1 1 80 80", "region 1 0 0 1 1 8", "region 1 0 0 1 1 8O",
    "region 1 0 0 -1 1 80", "region 1 0 0 1 4294967296 80", "region 4294967297 0 0 1 1 80", "region 1 0 0 1 1 80 ",
    "region 1 0 0  1 80", "region,1,0,0,1,1,80", "region 1 0 0 1 1 :0", "region 1 0 0 1 1 /0", "region 1 0 0 1 1 @0",
    "region 1 0 0 1 1 0`", "region 1 0 0 1 1 0g", "region 1 0 0 1 1 \xB20",
    "bitmap", "bitmap 1", "bitmap 1 BM", "bitmap 1 424", "bitmap - 42", "bitmap 1 42 4D", "bitmap 1\t42", "bitmap 1 42\t4D",
    "start", "start 1", "start 1 ", "start 1 4294967296", "start 1 5 5", "start one 5", "start 1 -5", "start 1 5\r",
    "start 1 18446744073709551616", "start :1 5", "start /1 5",
    "poll", "poll ", "poll -", "poll 1 2 3", "poll 4294967296", "poll 1 6399", "poll 1 117 ", "poll 1 -", "polls 1", "pol 1",
    "poll 1\x00", "poll 1 4294967413", "poll 99999999999999999999999999999999", "poll 18446744073709551617", "poll \xB2",
    "poll 1\xA0117", "abandon 1", "abandon ", " abandon", "abandoned", "abando", "abandon\r", "abandon\x00", "ABANDON",
    "begin", "begin ", "begin -", "begin 1 1", "begin 1 42", "begin 4294967296", "begin one", "begin  1", "begins 1", "BEGIN 1",
    "chunk", "chunk ", "chunk 4", "chunk 42 4D", "chunk 1 42", "chunk --", "chunk -42", "chunk 4G", "chunk  42", "chunk\t42", "Chunk 42",
    "finish ", "finish 1", "finish -", "finished", "finis", "FINISH", "cancel ", "cancel 1", "cancel -", "cancels", "cance", "cancel\r",
    "summary", "summary ", "summary -", "summary -1", "summary 1 1", "summary 1 ", "summary one", "summary  1", "summary 0x1",
    "summary 4294967296", "summary1", "summary\t1", "summarys 1", "summar 1", "Summary 1", "SUMMARY 1", " summary 1", "summary 1\r",
    "write", "write ", "write 1 6399", "write -1", "write 1 1 1", "write 1  1598", "write\x001", "write 4294967296",
    "done", "quit", "# note", "\xB2", "\xFF\xFE", "\xEF\xBB\xBFabandon",
)


def malformed(script):
    rng = script.rng
    text = rng.choice(MALFORMED)
    if rng.random() < 0.1:
        text = "".join(chr(rng.choice((*range(10), *range(11, 256)))) for _ in range(rng.randint(1, 60)))
    script.call(text)


STAYING = (region, bitmap, upload_to_slot_of_run, write, summary, start, refused_poll, refused_poll, abandon_without_run, wrong_memory,
           malformed, *[fills.next_call] * 4)


def other_call(script):
    """Some call that does not move a run on. Without a run it may start one."""
    script.rng.choice(STAYING)(script)


# openings, and calls that are accepted

def open_store(script, panel=None, file=None, n=None):
    rng = script.rng
    panel = panel or rng.choice(PANELS)
    n = n or rng.randint(1, 7)
    file = file or inputs.settings_file(rng, panel)
    length = rng.choice(("", "", f" {(n + 1) * picture_bytes(panel)}"))
    script.call(f"open {n} {hexadecimal(rng, file)}{length}")


def refused_opening(script):
    """A file with a fault, a wrong length, a wrong n, or several of these."""
    rng = script.rng
    panel, n = rng.choice(PANELS), rng.randint(1, 7)
    right = (n + 1) * picture_bytes(panel)
    wrong = rng.choice((0, 1, right - picture_bytes(panel), right - 1, min(right + 1, 46464), rng.randrange(right)))
    bad_n = rng.choice((0, 0, 8, 8, 9, 255, 256, 257, 263, 2 ** 31, 2 ** 32 - 1))
    damaged = hexadecimal(rng, inputs.damaged_settings(rng, panel))
    good = hexadecimal(rng, inputs.settings_file(rng, panel))
    script.call(rng.choice((
        f"open {n} {damaged}", f"open {n} {damaged} {right}", f"open {n} {damaged} {wrong}", f"open {bad_n} {damaged}",
        f"open {n} {good} {wrong}", f"open {bad_n} {good}", f"open {bad_n} {good} {wrong}",
        f"open 0 {good} {picture_bytes(panel)}")))


def upload(script, slot):
    """A whole picture, at once or by chunks, and some regions."""
    rng, panel = script.rng, script.store.panel
    file = inputs.bitmap(rng, panel)
    if script.store.fill is None and rng.random() < 0.4:
        fills.send(script, slot, cuts.cut(rng, panel, file, rng.choice(cuts.FEW)))
    elif rng.random() < 0.7:
        script.call(f"bitmap {slot} {hexadecimal(rng, file)}")
    for _ in range(rng.randint(0, 5)):
        x, y, width, height = inputs.region(rng, panel)
        script.call(f"region {slot} {x} {y} {width} {height} {hexadecimal(rng, inputs.payload(rng, width, height))}")


def upload_and_start(script):
    """An upload to some slot and a start with it."""
    slot = script.rng.randint(1, script.store.slots)
    if script.store.filled(slot):
        fills.end(script)
    upload(script, slot)
    script.call(f"start {slot} {any_tick(script)}")
