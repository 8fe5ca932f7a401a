"""Simulates a season of updates with the trainees' drivers and with this one, and writes docs/GHOSTING.md and its plots.

    python3 -m ghosting.season            writes the files
    python3 -m ghosting.season --check    makes them again in memory and fails where a file in docs/ differs

Run from the repository's root, with target/bin/replay built."""
import argparse
import os
import re
import sys
from collections import namedtuple
from string import Template

from ghosting import mistakes, model, plots, real, trainees, wire
from ghosting.figures import count, figures
from simulator.replay import PROGRAM

DOCUMENT = "docs/GHOSTING.md"
TEMPLATE = "ghosting/GHOSTING.template.md"
PLOTS = "docs/ghosting/"
DRIVERS = {
    "this": model.on_schedule,
    "wake": model.from_wake_time,
    "timer": model.by_published_timer,
    "lenient": model.by_lenient_timer,
    "skip": model.skipping,
}
OTHER_SEEDS = range(1, 6)
OTHER_SHARES = (0.0, 0.005, 0.05)
WIRE = {
    "right": wire.NoMistake,
    "reading": wire.ReadingOrder,
    "inbytes": wire.ReadingOrderInBytes,
    "never": wire.NeverCleared,
    "late": wire.ClearedLate,
}

# ---- the simulation

# frames, sums: of each driver; handed: lines of the proved driver; lines, composed: how much was compared with it; shares, seeds:
# other seasons
Results = namedtuple("Results", "season frames sums handed lines composed wire wraps pauses regions shares seeds")


def frames_of(season, names):
    return {name: [DRIVERS[name](update) for update in season] for name in names}


def sums_of(season, frames, names):
    """The sums of some drivers. The mistakes `copy` and `redraw` keep this driver's frames."""
    sums = {name: model.follow(season, frames[name if name in DRIVERS else "this"], copied=name == "copy", redraws=name == "redraw")
            for name in names}
    real.expect(sums["this"].off, 0, "by how much a dot at rest is off in a season")
    return sums


def another_season(names, **changed):
    """How late the boards turn over, and the sums, in a season with another seed or other wake-ups."""
    season = model.make_season(**changed)
    frames = frames_of(season, ("this", "wake", "timer", "skip"))
    return {name: model.lateness(made) for name, made in frames.items()}, sums_of(season, frames, names)


def simulate():
    season = model.make_season()
    frames = frames_of(season, DRIVERS)
    handed = real.lines_of(*plots.WIRE_BIBS)
    return Results(
        season, frames, sums_of(season, frames, (*DRIVERS, "copy", "redraw")), handed,
        lines=real.compare(season),
        composed=trainees.compare(season, frames["timer"], frames["skip"]),
        wire={name: wire.drawn(handed, mistake(), plots.WIRE_BIBS[-1]) for name, mistake in WIRE.items()},
        wraps=mistakes.wraps(season),
        pauses=mistakes.season_pauses(season[:-1]),
        regions=real.region_numbers(mistakes.REGIONS),
        shares={share: another_season(("this", "timer", "skip"), long=share) for share in OTHER_SHARES},
        seeds=[another_season(("this", "timer", "skip", "redraw"), seed=seed) for seed in OTHER_SEEDS])


# ---- the files

def drawn_plots(results):
    frames, sums, ms = results.frames, results.sums, {name: model.lateness(made) for name, made in results.frames.items()}
    followed = (("Stages ended by a timer", "timer"), ("A frame skipped to catch up", "skip"),
                ("Picture redrawn while it is shown", "redraw"), ("New picture copied at start", "copy"))
    ghosts = (("This driver", "this"), ("Stages ended by a timer", "timer"), ("A frame skipped", "skip"), ("Picture redrawn", "redraw"))
    boards = (("Right", "right"), ("Odd dots in reading order", "reading"), ("Scan byte never cleared", "never"),
              ("Cleared a row late", "late"))
    return {
        "sums.svg": plots.sums_plot([(title, sums[name]) for title, name in followed]),
        "turn-over.svg": plots.turn_over_plot((
            ("stages ended by a timer", plots.OTHER, ms["timer"], (-14, 60, "end")),
            ("next frame from wake time", plots.WRONG, ms["wake"], (128, 50, "start")),
            ("this driver", plots.THIS, ms["this"], (8, 60, "start")))),
        "frames.svg": plots.frames_plot((
            ("stages ended by a timer", plots.OTHER, frames["timer"][:-1]),
            ("a frame skipped to catch up", plots.WRONG, frames["skip"][:-1]),
            ("this driver", plots.THIS, frames["this"][:-1]))),
        "ghosts.svg": plots.ghosts_plot([(title, sums[name].sums) for title, name in ghosts]),
        "wire.svg": plots.wire_plot([(title, "%s dots wrong" % count(results.wire[name].wrong), results.wire[name].sums)
                                     for title, name in boards]),
    }


def document(results):
    with open(TEMPLATE, encoding="utf-8") as file:
        template = file.read()
    known = figures(results)
    unknown = set(re.findall(r"\$\{?([a-z][a-z0-9_]*)", template)) - set(known)
    if unknown:
        sys.exit("%s names figures that are not made: %s" % (TEMPLATE, ", ".join(sorted(unknown))))
    text = Template(template).substitute(known)
    missing = missing_names(text)
    if missing:
        sys.exit("%s names what is not there: %s" % (TEMPLATE, ", ".join(missing)))
    return text


def missing_names(text):
    """The files that a text names and that do not exist; and what it says to stand in a file and does not."""
    missing = [path for path in sorted(set(re.findall(r"`(crates/[^`\s]+)`", text))) if not os.path.exists(path)]
    for first, second, path in re.findall(r"(?:`([\w-]+)` and )?`([\w-]+)` in\s+`(crates/[^`\s]+)`", text):
        if path not in missing:
            with open(path, encoding="utf-8") as file:
                words = re.split(r"[^\w-]+", file.read())
            missing += ["%s in %s" % (name, path) for name in (first, second) if name and name not in words]
    return missing


def written(results):
    """Every file, by its path."""
    files = {PLOTS + name: svg for name, svg in drawn_plots(results).items()}
    files[DOCUMENT] = document(results)
    return files


def same(path, text):
    try:
        with open(path, encoding="utf-8", newline="") as file:
            return file.read() == text
    except FileNotFoundError:
        return False


def arguments():
    parser = argparse.ArgumentParser(prog="python3 -m ghosting.season", description="Writes %s and its plots." % DOCUMENT)
    parser.add_argument("--check", action="store_true", help="write nothing, and fail where a file in docs/ differs")
    return parser.parse_args()


def main():
    check = arguments().check
    if not os.path.exists(TEMPLATE):
        sys.exit("run this from the repository's root")
    if not os.path.exists(PROGRAM):
        sys.exit("%s is not there: build it first (make build)" % PROGRAM)
    try:
        results = simulate()
    except real.Differs as difference:
        sys.exit("the model is not the proved driver. %s" % difference)
    files = written(results)
    if check:
        differ = [path for path, text in sorted(files.items()) if not same(path, text)]
        if differ:
            sys.exit("not as the simulation makes them: %s" % ", ".join(differ))
        print("%d files as the simulation makes them, %s lines of the proved driver as the model says"
              % (len(files), count(results.lines)))
        return
    os.makedirs(PLOTS, exist_ok=True)
    for path, text in sorted(files.items()):
        with open(path, "w", encoding="utf-8", newline="") as file:
            file.write(text)
        print("wrote", path)


if __name__ == "__main__":
    main()
