"""After which calls a script asks for a summary, and what the summaries tell."""

# chances that a script asks after a call of this kind; after the others it always does
CHANCES = {"a chunk with a row's end": 0.3, "a chunk without a row's end": 0.1, "a refusal": 0.1, "a begin": 0.3, "a start": 0.3}
AFTER_FILL = {("chunk", "4"): "a chunk's 4", ("finish", "0"): "a finish", ("finish", "4"): "a finish's 4", ("cancel", "0"): "a cancel"}


def kind_of(name, answer, more_rows):
    """The kind of a call that names a slot or is one of a fill; of a chunk by whether it brought a row's end."""
    if (name, answer) == ("chunk", "0"):
        return "a chunk with a row's end" if more_rows else "a chunk without a row's end"
    return AFTER_FILL.get((name, answer)) or (f"a {name}" if answer == "0" else "a refusal")


def by_region(before, after):
    """The kind of a region by the slot's number of black dots."""
    return "a region that blackens" if after > before else "a region that whitens" if after < before else "a region"


def told(panel, slot, black, rows):
    """What a summary adds to the count of places."""
    if slot == 0:
        yield "summaries of slot 0, " + ("not blank" if black else "blank")
    if black < 2:
        yield "summaries of one dot" if black else "summaries of no dot"
    elif black == panel.width * panel.height:
        yield "summaries of all dots"
    elif rows[0] == rows[1]:
        yield "summaries of one row"
    else:
        yield "summaries of all rows" if rows == ["0", str(panel.height - 1)] else "summaries of some rows"


PLACES = (
    "summaries of slot 0, blank", "summaries of slot 0, not blank", "summaries of no dot", "summaries of one dot", "summaries of all dots",
    "summaries of one row", "summaries of some rows", "summaries of all rows", "summaries with memory of a wrong length",
    *(f"summaries after {kind}" for kind in (
        "an opening", "a bitmap", "a region that blackens", "a region that whitens", "a region", *CHANCES, *AFTER_FILL.values(), "a done")))
