"""A script in the making, and random arguments for its calls. The reference answers each call as it is made, so calls can be chosen
by where its store stands."""
import random
from collections import Counter

from tests.bitmaps.reference import HEADER, WHITE, colours_of
from tests.panels import PANELS
from tests.replay import cuts, inputs, reference, summaries

BACK = 2 ** 31  # the smallest step that is refused


class Script:
    def __init__(self, name, seed=0, asking=False):
        """Asking for summaries after calls that write a slot."""
        self.name, self.seed, self.asking = name, seed, asking
        self.rng = random.Random(f"{name} {seed}")
        self.store = reference.Store()
        self.calls = []
        self.answers = []        # by the reference
        self.typed = {}          # call number: an answer typed by hand; after a * anything may follow
        self.facts = []          # what, found, typed by hand: found without the program
        self.shown = {}          # call number of a done: the shown picture from then on
        self.places = Counter()  # how often something rare was reached
        self.coming = []         # chunks that are planned for the fill under way
        self.black = Counter()   # slot: its black dots by the last summary

    def call(self, text):
        panel, run, fill = self.store.panel, self.store.running, self.store.fill
        rows = self.store.whole_rows(fill) if fill and text.startswith("chunk") else 0
        answer = reference.answer(self.store, text)
        self.calls.append(text)
        self.answers.append(answer)
        if answer == "0 done":
            self.shown[len(self.calls) - 1] = self.store.picture(0)
            self.places.update(finished(run))
            self.places["dones while a slot is filled"] += fill is not None
            self.ask(0, "a done")
        elif not text.startswith("poll") and answer != "?":
            name, *words = text.split(" ")
            if fill:
                self.places.update(in_fill(panel, fill, name, answer))
            self.ask_after(name, words, answer, fill, rows)
        return answer

    def ask_after(self, name, words, answer, fill, rows):
        """After a call that names a slot or is one of a fill: asks for the slot's summary. The fill and its rows were there before."""
        if (name, answer) == ("open", "0"):
            self.black.clear()
            self.ask(self.rng.randint(0, self.store.slots), "an opening")
        elif name in ("region", "bitmap", "begin", "start"):
            self.ask(int(words[0]), summaries.kind_of(name, answer, False))
        elif fill and name in ("chunk", "finish", "cancel"):
            self.ask(fill.slot, summaries.kind_of(name, answer, self.store.whole_rows(fill) > rows))

    def ask(self, slot, kind):
        if self.asking and self.rng.random() < summaries.CHANCES.get(kind, 1):
            before = self.black[slot]
            if self.summary(slot) != "3":
                kind = summaries.by_region(before, self.black[slot]) if kind == "a region" else kind
                self.places["summaries after " + kind] += 1

    def summary(self, slot):
        answer = self.call(f"summary {slot}")
        if answer.startswith("0 "):
            black, *rows = answer.split(" ")[1:]
            self.black[slot] = int(black)
            self.places.update(summaries.told(self.store.panel, slot, int(black), rows))
            self.places["summaries with memory of a wrong length"] += self.store.unusable() == 1
        return answer

    def expect(self, text, typed):
        """A call with its answer typed by hand."""
        self.typed[len(self.calls)] = typed
        return self.call(text)

    def poll(self, step, length=""):
        """A poll of the run under way, this many milliseconds after the last accepted reading."""
        run = self.store.running
        tick = run.last + step
        answer = self.call(f"poll {tick % 2 ** 32}{length}")
        if answer.startswith("0 "):
            self.places["polls over a wrap of the tick"] += tick >= 2 ** 32
            self.places["accepted steps of 2^31 - 1"] += step == BACK - 1
            self.places["polls 1 ms early"] += answer == "0 wait 1"
        elif answer == "10":
            self.places["refused steps of 2^31"] += step == BACK
            self.places["refused steps of 2^32 - 1"] += step == 2 ** 32 - 1
        if answer.startswith("0 line") and run.next == run.first_stop:
            self.places["last lines later than F + 120N" if run.passed > run.lines_end() else "last lines by F + 120N"] += 1
        return answer

    def abandon(self):
        run = self.store.running
        if run and self.call("abandon") == "0":
            self.places["abandoned " + place_name(run)] += 1


def finished(run):
    """What a finished run adds to the count of places."""
    yield f"runs finished, {run.panel.name} inch"
    if run.first >= 2 ** 32:
        yield "runs with F beyond 2^32"
    if run.wait_before_lines:
        yield "runs with a wait before the first line"
    if not run.stop:
        yield "runs with waits alone to stop" if run.wait_before_done else "runs without stop steps"


def in_fill(panel, fill, name, answer):
    """What a call adds to the count of places that began with a slot being filled."""
    if (name, answer) == ("finish", "0"):
        yield f"fills finished, {panel.name} inch"
        yield "fills finished, white first" if colours_of(fill.came)[0] == WHITE else "fills finished, black first"
    elif (name, answer) == ("finish", "4"):
        yield "fills finished too early"
    elif (name, answer) == ("cancel", "0"):
        yield "fills cancelled"
    elif (name, answer) == ("chunk", "4"):
        yield "fills refused " + bad_place(panel, fill.came)
    elif (name, answer) == ("chunk", "0"):
        yield "chunks taken, to " + end_place(panel, len(fill.came))
    elif name == "open":
        yield "openings while a slot is filled"


def bad_place(panel, came):
    place = cuts.first_bad(panel, came)
    return next((f"at {at}" for at, size in inputs.LOOKED_AT if at <= place < at + size), "after the file's end")


def end_place(panel, came):
    """Where the bytes end that came."""
    if came < HEADER:
        fields = [at for at, _ in inputs.LOOKED_AT]
        return "a field's end" if came in fields else "the inside of a field"
    row, rest = divmod(came - HEADER, panel.stride)
    if rest == 0:
        return "the header's end" if row == 0 else "the file's end" if row == panel.height else "a row's end"
    if rest == panel.stride - 1:
        return "one byte before a row's end"
    return "the padding" if rest >= panel.width // 8 else "the inside of a row"


def place_name(run):
    stage = run.stage()
    if stage == 0:
        return "among the start writes"
    if stage < 5:
        return "before the last line" if run.next == run.first_stop - 1 else f"in stage {stage}"
    if run.next == run.last_thing:
        return "before done"
    return "before the first stop write" if run.next == run.first_stop else "among the stop writes"


# arguments

def hexadecimal(rng, data):
    text = data.hex()
    if not text:
        return "-"
    return text if rng.random() < 0.3 else text.upper() if rng.random() < 0.7 else text.title()


def any_slot(script):
    """Mostly one that an upload may name."""
    n = script.store.slots or 3
    if script.rng.random() < 0.75:
        return script.rng.randint(1, n)
    return script.rng.choice((0, 0, 0, n, n + 1, 8, 255, 256, 257, 2 ** 31, 2 ** 32 - 1))


def any_tick(script):
    rng = script.rng
    return rng.choice((0, 1, 2 ** 31 - 1, 2 ** 31, 2 ** 32 - 1, 2 ** 32 - rng.randint(1, 5000), rng.randrange(2 ** 32)))


def any_panel(script):
    """The store's panel, if it has one."""
    return script.store.panel or script.rng.choice(PANELS)


def picture_bytes(panel):
    return panel.width // 8 * panel.height


def right_length(script):
    return (script.store.slots + 1) * script.store.size()


def wrong_length(script):
    right, size = right_length(script), script.store.size()
    most = reference.MOST_MEMORY
    wrong = script.rng.choice((0, 1, right - 1, right + 1, right - size, right + size, most, script.rng.randrange(right)))
    return wrong if wrong != right and wrong <= most else 0
