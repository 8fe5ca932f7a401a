"""The figures of docs/GHOSTING.md, as texts by the names that its template has for them."""
from ghosting import mistakes, model, plots, real
from ghosting.svg import number


def count(value):
    return "{:,}".format(value).replace("-", "\u2212")


def share(part, whole):
    """A share in per cent."""
    value = 100 * part / whole
    return "%d" % value if value in (0, 100) else "%.1f" % value if value < 10 or value > 99 else "%.0f" % value


def mean(values):
    return number("%.1f" % (sum(values) / len(values)))


def listed(values):
    return ", ".join(map(str, values[:-1])) + " and %d" % values[-1]


def lateness_figures(results):
    made = {}
    for name, frames in results.frames.items():
        ms = model.lateness(frames)
        made.update({name + "_mean": mean(ms), name + "_worst": number(max(ms)), name + "_before": str(-min(ms))})
    wake = model.lateness(results.frames["wake"])
    made.update({"wake_100": share(sum(ms > 100 for ms in wake), len(wake)), "wake_earliest": str(min(wake))})
    missing = [sum(begin + model.LAST_LINE > model.ON_TIME for begin in model.begins_from_wake_time(update.frames))
               for update in results.season[:-1]]
    made.update({"missing": mean(missing), "missing_most": str(max(missing))})
    made["this_3"] = share(sum(ms <= model.SHORT_LATE[1] for ms in model.lateness(results.frames["this"])), model.DAYS * model.BIBS)
    held_up = model.begins_on_schedule([0, model.LONG_LATE[1]] + [0] * (model.FRAMES - 2))
    late = [begin - model.FRAME * i for i, begin in enumerate(held_up)]
    made["made_good"] = listed([ms for ms in late[2:] if ms > 0])
    return made


def sums_figures(results):
    made = {}
    for name, sums in results.sums.items():
        made[name + "_low"] = number(min(low for low, _ in sums.days))
        made[name + "_high"] = number(max(high for _, high in sums.days))
        made.update({name + "_off": str(sums.off), name + "_day": str(sums.day)})
        made.update({name + "_end_low": number(min(sums.sums)), name + "_end_high": number(max(sums.sums))})
    redrawn = [update.redraw for update in results.season if update.redraw is not None]
    made["redrawn"] = count(len(redrawn))
    made["redrawn_late"] = count(sum(frame > 2 * model.N for frame in redrawn))
    return made


def stage_figures(results):
    made = {}
    for name in ("timer", "lenient", "skip"):
        counts = [n for update in results.frames[name][:-1] for n in update.counts]
        uneven = sum(len(set(update.counts)) > 1 for update in results.frames[name][:-1])
        made.update({"%s_%d" % (name, n): share(counts.count(n), len(counts)) for n in range(13, 17)})
        made[name + "_fewest"] = str(min(counts))
        made[name + "_uneven"] = share(uneven, len(results.season) - 1)
    return made


def moment_figures(results):
    """The mistakes that strike at one moment."""
    wraps, pauses = results.wraps, results.pauses
    short = [(ordered, given) for ordered, given in pauses if given < ordered]
    made = {"pauses": count(len(pauses)), "short": share(len(short), len(pauses))}
    made["half"] = count(sum(2 * given < ordered for ordered, given in pauses))
    made["shortest_30"] = str(min(given for ordered, given in pauses if ordered == 30))
    made["shortest_120"] = str(min(given for ordered, given in pauses if ordered == 120))
    made["wraps"] = count(wraps.tried)
    made.update({"still": share(wraps.still, wraps.tried), "early": share(wraps.early, wraps.tried)})
    made.update({"early_most": str(wraps.most), "refused": share(wraps.refused, wraps.tried)})
    made["wrap_days"] = "%.1f" % (mistakes.TICKS / mistakes.DAY)
    made["under_way"] = "%.1f" % (100 * model.FRAME * model.FRAMES / real.INTERVAL)
    return made


def wire_figures(results):
    made = {}
    for name, drawn in results.wire.items():
        made.update({name + "_wrong": count(drawn.wrong), name + "_lowest": count(drawn.lowest)})
        made[name + "_highest"] = count(drawn.highest)
    made.update({"wire_before": str(plots.WIRE_BIBS[0]), "wire_bib": str(plots.WIRE_BIBS[1])})
    return made


def region_rows(results):
    rows = []
    for (x, width, _), answer in zip(mistakes.REGIONS, results.regions):
        passes = mistakes.passes_in_32_bits(x, width)
        painted = count(mistakes.bytes_after_the_store(x, width)) if passes else "0"
        cells = (count(x), count(width), count((x + width) % mistakes.TICKS), "passes" if passes else "refused", painted, str(answer))
        rows.append("| %s |" % " | ".join(cells))
    huge = {answer for (_, width, _), answer in zip(mistakes.REGIONS, results.regions) if width > mistakes.TICKS // 2}
    return {"regions": "\n".join(rows), "region_answer": " or ".join(map(str, sorted(huge)))}


def other_rows(results):
    """The tables of other seasons: with other wake-ups, and with other seeds."""
    shares = dict(results.shares)
    shares[model.LONG] = {name: model.lateness(frames) for name, frames in results.frames.items()}, results.sums
    rows = []
    for long, (ms, sums) in sorted(shares.items()):
        held_up = "none" if long == 0 else "1 in %d" % round(1 / long)
        cells = (held_up, mean(ms["wake"]), str(max(ms["wake"])), str(sums["timer"].off), str(sums["skip"].off), mean(ms["this"]),
                 str(max(ms["this"])), str(sums["this"].off))
        rows.append("| %s |" % " | ".join(cells))
    made = {"shares": "\n".join(rows)}
    for name in ("timer", "skip", "redraw"):
        offs = [sums[name].off for _, sums in results.seeds]
        made[name + "_seeds"] = "%d to %d" % (min(offs), max(offs))
    made["this_seeds"] = str(max(sums["this"].off for _, sums in results.seeds))
    return made


def plain_figures(results):
    """What the model assumes, and what was compared."""
    on_time = model.Update(bib=1, frames=[0] * model.FRAMES, stages=[0] * 4, start=[], stop=[], redraw=None)
    net = model.paths((model.N,) * 4).net
    made = {
        "days": str(model.DAYS), "bibs": str(model.BIBS), "updates": count(model.DAYS * model.BIBS), "seed": str(model.SEED),
        "seeds": str(len(results.seeds)), "long": str(round(1 / model.LONG)), "n": str(model.N), "frames": str(model.FRAMES),
        "frame": str(model.FRAME), "stage": str(model.STAGE), "send": str(model.SEND), "on_time": count(model.ON_TIME),
        "real_updates": str(real.UPDATES), "real_lines": count(results.lines), "real_frames": count(real.UPDATES * model.FRAMES),
        "dots": count(plots.PANEL.width * plots.PANEL.height), "composed": str(results.composed),
        "wrap_in": str(real.WRAP_IN + 1), "wrap_updates": str(mistakes.WRAP_UPDATES),
        "width": str(plots.PANEL.width), "rows": str(plots.PANEL.height), "line_bytes": str(len(results.handed[0])),
        "timer_on_time": str(model.by_published_timer(on_time).counts[0]),
        "lenient_on_time": str(model.by_lenient_timer(on_time).counts[0]),
        "start_pauses": listed(model.START_PAUSES), "stop_pauses": listed(model.STOP_PAUSES),
        "short_late": "%d to %d" % model.SHORT_LATE, "long_late": "%d to %d" % model.LONG_LATE, "longest": str(model.LONG_LATE[1]),
    }
    made.update({"white_white": str(net[7]), "black_black": str(net[0])})
    made.update({"white_black": number(net[4]), "black_white": "+%d" % net[3]})
    return made


def figures(results):
    made = {}
    for part in (lateness_figures, sums_figures, stage_figures, moment_figures, wire_figures, region_rows, other_rows, plain_figures):
        made.update(part(results))
    return made
