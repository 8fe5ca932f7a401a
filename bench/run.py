"""Times the driver beside plain C, and regions beside a loop over their dots, in one run; prints the ratios and writes them to
docs/BENCHMARKS.md.

Run from the repository's root by `make bench`, which builds the libraries. `--compare` only checks that the driver and
plain C put the same bytes out in a whole update of each panel, take the same bitmaps by chunks, count the same dots, paint the same
regions, and give out the same for a finish panel and the hall display.
"""
import os
import re
import shutil
import subprocess
import sys

from simulator import settings
from simulator.panel import PANELS

OUT = "target/bench"
LIBRARIES = "target/staticlib"
COMPILE = ["gcc", "-std=c99", "-O3", "-Wall", "-Wextra", "-pedantic", "-Iinclude"]
LINE_ROUNDS, UPDATE_ROUNDS, FINISH_ROUNDS, HALL_ROUNDS, REGION_ROUNDS = 60, 100, 60, 60, 200
REGION_LIMITS = {"whole": 1 / 3, "part": 1 / 4}  # at most this much of the time of the loop over the region's dots
FILL_LIMIT = 3  # a bitmap fed whole takes at most so many times its upload
COUNT_LIMIT = 2  # the count of an upload's slot takes at most so many times the upload's own copy
BUS_HZ = 12_000_000


def build():
    os.makedirs(OUT, exist_ok=True)
    # files of their own, so that the compiler does not see the calls it is timed by
    for name in ("plain", "plain_store", "plain_rows", "plain_finish", "plain_hall"):
        subprocess.run(COMPILE + ["-c", f"bench/{name}.c", "-o", f"{OUT}/{name}.o"], check=True)
    subprocess.run(COMPILE + ["bench/line.c", f"{OUT}/plain.o", f"{LIBRARIES}/libstart_board.a", "-o", f"{OUT}/line"], check=True)
    subprocess.run(COMPILE + ["bench/finish.c", f"{OUT}/plain_finish.o", f"{LIBRARIES}/libstart_board.a", "-o", f"{OUT}/finish"], check=True)
    subprocess.run(COMPILE + ["bench/hall.c", f"{OUT}/plain_hall.o", f"{LIBRARIES}/libstart_board.a", "-o", f"{OUT}/hall"], check=True)
    subprocess.run(COMPILE + ["bench/update.c", f"{OUT}/plain.o", f"{OUT}/plain_store.o", f"{OUT}/plain_rows.o",
                              f"{LIBRARIES}/libupdate_loop.a", "-o", f"{OUT}/update"], check=True)
    subprocess.run(COMPILE + ["bench/region.c", f"{OUT}/plain_rows.o", f"{LIBRARIES}/libby_dots.a", "-o", f"{OUT}/region"], check=True)
    for panel in PANELS:
        with open(settings_path(panel), "wb") as file:
            file.write(settings.read(panel))


def settings_path(panel):
    return f"{OUT}/settings_{panel.name}"


def numbers(command):
    """The lines `name number` that a program prints."""
    ran = subprocess.run(command, stdout=subprocess.PIPE, text=True)
    if ran.returncode != 0:
        sys.exit(f"{' '.join(command)}: {ran.stdout.strip()}")
    return {name: float(value) for name, value in (line.split() for line in ran.stdout.splitlines())}


def compare():
    for panel in PANELS:
        found = numbers([f"{OUT}/update", settings_path(panel), "1"])
        print(f"panel {panel.name}: the driver and plain C put the same {found['bytes']:,.0f} bytes out and leave the same memory; "
              f"{found['fills_taken']:,.0f} bitmaps by chunks taken alike, {found['fills_refused']:,.0f} refused alike; "
              f"{found['dots_counted']:,.0f} dots counted one by one")
    found = numbers([f"{OUT}/region", "0"])
    print(f"{found['painted']:,.0f} regions, at every x and of every width, by whole bytes, dot by dot and in plain C: the same pictures; "
          f"{found['refused']:,.0f} refused alike")
    numbers([f"{OUT}/finish", "0"])
    print("finish panel: the driver and plain C give out the same 2,073 things")
    numbers([f"{OUT}/hall", "0"])
    print("hall display: the driver and plain C give the same 957 commands and the same checksum")


def profile(panel):
    """Where the instructions of a whole update go: name, thousands, share; or nothing where valgrind is not installed."""
    if shutil.which("valgrind") is None:
        return []
    trace = f"{OUT}/callgrind"
    subprocess.run(["valgrind", "--tool=callgrind", f"--callgrind-out-file={trace}", "--toggle-collect=store_update",
                    f"{OUT}/update", settings_path(panel), "1"], check=True, stdout=subprocess.DEVNULL, stderr=subprocess.DEVNULL)
    text = subprocess.run(["callgrind_annotate", trace], check=True, stdout=subprocess.PIPE, text=True).stdout
    # a generic function has a row for each of its types and numbers: `wire::put_dots::<=1>`
    rows = re.findall(r"^ *([\d,]+) \( ?[\d.]+%\) +\S*?([\w:]+?)(?:::<\S*>)? \[", text, re.M)
    whole = int(re.search(r"^ *([\d,]+) .*PROGRAM TOTALS", text, re.M).group(1).replace(",", ""))
    counts = {}
    for count, name in rows:
        name = name.split(":", 1)[-1].lstrip(":")
        counts[name] = counts.get(name, 0) + int(count.replace(",", ""))
    return [(name, count // 1000, f"{100 * count / whole:.2f}") for name, count in sorted(counts.items(), key=lambda row: -row[1])
            if 100 * count >= whole]


def row(work, ours, theirs, unit, scale, ratio=".2f"):
    return f"| {work} | {ours / scale:,.1f} {unit} | {theirs / scale:,.1f} {unit} | {ours / theirs:{ratio}} |"


def tables(panel):
    """The timed work as rows of a table, and the figures that the text needs."""
    line = numbers([f"{OUT}/line", str(LINE_ROUNDS)])
    store = numbers([f"{OUT}/update", settings_path(panel), str(UPDATE_ROUNDS)])
    rows = [
        row("one line, against plain C dot by dot", line["line_library"], line["line_dots"], "ns", 1),
        row("one line, against plain C byte by byte", line["line_library"], line["line_bytes"], "ns", 1),
        row("a whole update: opening, upload, start, all polls", store["update_library"], store["update_plain"], "ms", 1e6),
        row("the same, against plain C that trusts its state", store["update_library"], store["update_trusting"], "ms", 1e6),
        row("opening and a bitmap upload, black first", store["bitmap_library"], store["bitmap_plain"], "us", 1e3),
        row("the same picture with white first", store["negative_library"], store["negative_plain"], "us", 1e3),
        row("opening and the whole panel as one region", store["region_library"], store["region_plain"], "us", 1e3),
    ]
    return rows, line, store


def region_rows():
    """The writing of a region by whole bytes, beside the loop over its dots and plain C."""
    found = numbers([f"{OUT}/region", str(REGION_ROUNDS)])
    for name, limit in REGION_LIMITS.items():
        if found[f"{name}_bytes"] > limit * found[f"{name}_dots"]:
            sys.exit(f"region '{name}' takes more than {limit:.2f} of the loop over its dots")

    def timed(work, name, beside, ratio):
        return row(work, found[f"{name}_bytes"], found[f"{name}_{beside}"], "us", 1e3, ratio)

    return [
        timed("the whole panel, beside a loop over its dots", "whole", "dots", ".4f"),
        timed("the whole panel, beside plain C for any region, `memcpy` of its rows", "whole", "plain", ".2f"),
        timed("the whole panel, beside bare `memcpy` of 176 times 33 bytes", "whole", "bare", ".2f"),
        timed("250 dots wide at x = 3, beside a loop over its dots", "part", "dots", ".4f"),
        timed("250 dots wide at x = 3, beside plain C for any region, by shifts and masks", "part", "plain", ".2f"),
    ]


def fill_rows(store):
    """A bitmap by chunks beside its whole upload, the opening's time taken off: driver, plain C, and both ratios."""
    def alone(work, version):
        return store[f"{work}_{version}"] - store[f"opening_{version}"]

    whole = alone("bitmap", "library")
    if alone("fill_whole", "library") > FILL_LIMIT * whole:
        sys.exit(f"a bitmap fed whole takes more than {FILL_LIMIT} times its upload: {alone('fill_whole', 'library') / whole:.2f}")

    def timed(work, name):
        ours = alone(name, "library")
        return f"{row(work, ours, alone(name, 'plain'), 'us', 1e3)} {ours / whole:,.2f} |"

    return [
        timed("one whole upload", "bitmap"),
        timed("begin, one chunk, finish", "fill_whole"),
        timed("begin, 100 chunks of up to 64 bytes, finish", "fill_64"),
        timed("begin, 6,398 chunks of a byte, finish", "fill_bytes"),
    ]


def count_parts(store):
    """What the count of a slot adds to an upload, the opening's time taken off: rows, and the count over the copy, of random dots and
    of a blank picture."""
    over = [store[f"{name}_library"] / store["copy_library"] for name in ("count", "blank")]
    if max(over) > COUNT_LIMIT:
        sys.exit(f"the count of a slot takes more than {COUNT_LIMIT} times the upload's own copy: {max(over):.2f}")
    upload, without = ({version: store[f"bitmap_{version}"] - store[f"opening_{version}"] - taken * store[f"count_{version}"]
                        for version in ("library", "plain")} for taken in (0, 1))

    def timed(work, times):
        return row(work, times["library"], times["plain"], "ns", 1)

    def part(work, name):
        return timed(work, {version: store[f"{name}_{version}"] for version in ("library", "plain")})

    rows = [
        timed("an upload, with its count", upload),
        timed("the same without it, the count's time taken off", without),
        part("the upload's own copy alone", "copy"),
        part("its count alone", "count"),
        part("the count of a blank picture", "blank"),
    ]
    return rows, *(f"{ratio:.2f}" for ratio in over)


def white_over_black(store):
    """An upload with white first over one with black first: with the opening before it, and with its time taken off."""
    black, white, opening = (store[f"{name}_library"] for name in ("bitmap", "negative", "opening"))
    return f"{white / black:.2f}", f"{(white - opening) / (black - opening):.2f}"


def finish_rows():
    """A call for a finish panel, early and late in an update, and the write of a picture."""
    found = numbers([f"{OUT}/finish", str(FINISH_ROUNDS)])

    def timed(work, name, unit, scale):
        return row(work, found[f"{name}_library"], found[f"{name}_plain"], unit, scale)

    return [
        timed("the first write, at count 0", "first", "ns", 1),
        timed("a write of the last stage, at count 2,062", "soft", "ns", 1),
        timed("the last write, at count 2,072", "last", "ns", 1),
        timed("the picture's write, 48,001 bytes", "picture", "us", 1e3),
    ]


def hall_parts():
    """Commands wherever they stand in an upload, both checksums, and how the two compare."""
    found = numbers([f"{OUT}/hall", str(HALL_ROUNDS)])

    def timed(work, name, unit, scale):
        return row(work, found[f"{name}_library"], found[f"{name}_plain"], unit, scale)

    rows = [
        timed("the first command, with the header", "first", "ns", 1),
        timed("a command in the middle, number 478", "middle", "ns", 1),
        timed("the last full command, number 955", "late", "ns", 1),
        timed("the checksum as printed, 240,016 bytes", "printed", "us", 1e3),
        timed("the checksum by the table", "table", "us", 1e3),
    ]
    return rows, f"{found['table_library'] / found['printed_library']:.2f}"


def wire_rows(panel, line, store):
    """The time of the processor over the time that the same bytes take on the bus."""
    lines = 4 * panel.frames * panel.height
    body = panel.width // 4 + panel.height // 4
    bus_line, bus_all = 8e9 * (body + 7) / BUS_HZ, 8e9 * store["bytes"] / BUS_HZ
    return [
        f"| one line built | {line['line_library']:.1f} ns | {bus_line / 1e3:.1f} us | {100 * line['line_library'] / bus_line:.3f} % |",
        f"| one poll that hands out a line | {store['update_library'] / lines:.0f} ns | {bus_line / 1e3:.1f} us "
        f"| {100 * store['update_library'] / lines / bus_line:.2f} % |",
        f"| a whole update | {store['update_library'] / 1e6:.2f} ms | {bus_all / 1e6:.0f} ms "
        f"| {100 * store['update_library'] / bus_all:.2f} % |",
    ]


def processor():
    with open("/proc/cpuinfo", encoding="utf-8", errors="replace") as info:
        return next((line.split(":")[1].strip() for line in info if line.startswith("model name")), "an unnamed processor")


def document(panel):
    rows, line, store = tables(panel)
    hall, hall_ratio = hall_parts()
    with open("bench/BENCHMARKS.template.md", encoding="utf-8") as template:
        text = template.read()
    with_opening, alone = white_over_black(store)
    counts, count_ratio, blank_ratio = count_parts(store)
    compiler = subprocess.run(["gcc", "--version"], stdout=subprocess.PIPE, text=True).stdout.splitlines()[0]
    parts = {
        "MACHINE": f"{processor()}; {compiler}",
        "WRITES": str(settings.writes(settings.read(panel))),
        "LINE_ROUNDS": str(LINE_ROUNDS), "UPDATE_ROUNDS": str(UPDATE_ROUNDS),
        "RATIOS": "\n".join(rows),
        "REGION_ROUNDS": str(REGION_ROUNDS),
        "REGIONS": "\n".join(region_rows()),
        "FILLS": "\n".join(fill_rows(store)), "FILL_LIMIT": str(FILL_LIMIT),
        "COUNTS": "\n".join(counts), "COUNT_LIMIT": str(COUNT_LIMIT), "COUNT_RATIO": count_ratio, "BLANK_RATIO": blank_ratio,
        "WHITE_FIRST": with_opening, "WHITE_FIRST_ALONE": alone,
        "FINISH_ROUNDS": str(FINISH_ROUNDS),
        "FINISH": "\n".join(finish_rows()),
        "HALL_ROUNDS": str(HALL_ROUNDS), "HALL_TABLE": hall_ratio,
        "HALL": "\n".join(hall),
        "WIRE": "\n".join(wire_rows(panel, line, store)),
        "PROFILE": "\n".join(f"| `{name}` | {count:,} | {share} % |" for name, count, share in profile(panel))
                   or "| valgrind is not installed here | | |",
    }
    return re.sub(r"\{(\w+)\}", lambda found: parts[found.group(1)], text)


def main():
    if sys.argv[1:] not in ([], ["--compare"]):
        sys.exit("usage: python3 -m bench.run [--compare]")
    build()
    if sys.argv[1:]:
        return compare()
    text = document(PANELS[2])
    with open("docs/BENCHMARKS.md", "w", encoding="utf-8") as file:
        file.write(text)
    print(text)


if __name__ == "__main__":
    main()
