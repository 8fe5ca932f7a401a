"""Runs the examples of docs/FORMATS.md: the listing of a settings file, the mending of a bitmap, the scripts for replay, the bitmap
file of a slot with its palettes, and that file by chunks.

Usage, from the repository's root: python3 -m tests.formats
"""
import itertools
import re
import subprocess
import sys

DOCUMENT = "docs/FORMATS.md"
LISTING, REPLAY = "target/bin/settings_list", "target/bin/replay"


def blocks(text):
    """The examples: groups of lines that are indented by four spaces."""
    return [[line[4:] for line in block.splitlines()] for block in re.findall(r"(?:^    .*\n?)+", text, re.M)]


def run(program, data):
    return subprocess.run([program], input=data, stdout=subprocess.PIPE, check=True).stdout


def replayed(calls):
    return run(REPLAY, "".join(call + "\n" for call in calls).encode("ascii")).decode("ascii").splitlines()


def listing_example(block):
    """`$ echo HEX | xxd -r -p | PROGRAM`, and what it prints."""
    file = bytes.fromhex(re.fullmatch(r"\$ echo ([0-9A-F ]+)\|.*", block[0]).group(1))
    return [("listing", run(LISTING, file).decode("ascii").splitlines(), block[1:])]


def mend_example(block):
    """`$ COMMAND > FILE`, and what it tells on standard error."""
    command = block[0].removeprefix("$ ").rsplit(" > ", 1)[0]
    told = subprocess.run(command, shell=True, stdout=subprocess.DEVNULL, stderr=subprocess.PIPE, check=True).stderr
    return [("mending", told.decode("ascii").splitlines(), block[1:])]


def script_example(block):
    """A call and its answer on each line; two points stand for bytes that are left out."""
    pairs = [re.split("  +", line) for line in block]
    for (call, typed), given in zip(pairs, replayed([call for call, _ in pairs])):
        same = re.fullmatch(".*".join(map(re.escape, typed.split(".."))), given)
        yield call, given, given if same else typed


def written(calls):
    """The file of slot 1 after these calls."""
    return bytes.fromhex(replayed(calls + ["write 1"])[-1].split(" ")[1])


def bitmap_example(text, opening, file):
    """The rows of the table of a file: an index, and bytes that stand there. Then those of the table of palettes: the
    palette, and what three bytes of row 10 become."""
    table, _, palettes = text[text.index("This is the file"):].split("\n\n")[1:4]
    for at, cells in re.findall(r"^\| ([\d,]+) \| (.*?) \|", table, re.M):
        typed = bytes.fromhex("".join(re.findall("`([0-9A-F ]+)`", cells)))
        index = int(at.replace(",", ""))
        yield f"bitmap at {at}", file[index:index + len(typed)], typed
    for palette, typed in re.findall(r"^\| (`.*`) \| `(.*)` \|", palettes, re.M):
        given = written([opening, f"bitmap 1 {(file[:54] + bytes.fromhex(palette.replace('`', '')) + file[62:]).hex()}"])
        yield f"palette {palette}", given[1422:1425], bytes.fromhex(typed)


def rows_there(file, slot):
    """How many rows of a file stand in the slot, from the bottom row up."""
    places = range(62, len(file), 16)
    return next((k for k, at in enumerate(places) if slot[at:at + 16] != file[at:at + 16]), len(places))


def fill_example(text, opening, file):
    """The rows of the table of a fill: after each call, how many bytes have come, and how many of their rows are in the slot. It is a
    slot that was black."""
    table = text[text.index("| bytes so far |"):].split("\n\n")[0]
    rows = [(call, *(int(cell.replace(",", "")) for cell in cells)) for call, *cells in re.findall(
        r"^\| (.*?) \| ([\d,]+) \| (\d+) \|$", table, re.M)]
    calls, before = [opening, "region 1 0 0 128 96 " + "00" * 1536], 0
    for call, came, typed in rows:
        calls.append({"begin": "begin 1", "finish": "finish"}.get(call, "chunk " + (file[before:came].hex() or "-")))
        before = came
        yield f"fill: {call}", replayed(calls)[-1], "0"
        yield f"fill: rows after {call}", rows_there(file, written(calls)), typed


def main():
    with open(DOCUMENT, encoding="utf-8") as document:
        text = document.read()
    listing = next(block for block in blocks(text) if block[0].startswith("$ echo"))
    mending = next(block for block in blocks(text) if "bitmap_mend" in block[0] and block[0].startswith("$ "))
    scripts = [block for block in blocks(text) if block[0].startswith("open ")]
    opening, upload = (re.split("  +", line)[0] for line in next(block[:2] for block in scripts if block[1].startswith("region ")))
    file = written([opening, upload])
    failed = passed = 0
    for what, given, typed in itertools.chain(
            listing_example(listing), mend_example(mending), *map(script_example, scripts), bitmap_example(text, opening, file),
            fill_example(text, opening, file)):
        passed += given == typed
        failed += given != typed
        if given != typed:
            print(f"{DOCUMENT}, {what}: {typed} there, but {given}")
    print(f"{passed} passed, {failed} failed")
    sys.exit(1 if failed else 0)


if __name__ == "__main__":
    main()
