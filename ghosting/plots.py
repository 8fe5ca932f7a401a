"""The plots of docs/GHOSTING.md."""
from collections import Counter

from ghosting import bibs, model
from ghosting.svg import GRID, INK, SOFT, Axes, Canvas, number

THIS, WRONG, OTHER = "#0a7d4f", "#c8501e", "#6a4fb3"
PANEL = bibs.PANEL


def percent(value):
    return "%d %%" % value


# ---- the sums over the season

def sums_plot(followed):
    """Small fields of the same scale: between the lowest and the highest sum of each race day, and this driver's band."""
    canvas = Canvas(860, 590, "Lowest and highest sum of any dot on each race day of a season")
    low = min(sums.days[d][0] for _, sums in followed for d in range(model.DAYS))
    high = max(sums.days[d][1] for _, sums in followed for d in range(model.DAYS))
    up = (-100 * ((40 - low) // 100 + 1), 100 * ((high + 20) // 100 + 1))
    for k, (name, sums) in enumerate(followed):
        field = Axes(canvas, 70 + 410 * (k % 2), 40 + 265 * (k // 2), 355, 190, (1, model.DAYS), up)
        field.ticks_up(range(up[0], up[1] + 1, 100))
        field.ticks_across((1, 25, 50, 75, 100))
        field.floor()
        canvas.text(field.x, field.y - 12, name, 14, bold=True)
        days = list(enumerate(sums.days, 1))
        field.area([(d, day[0]) for d, day in days] + [(d, day[1]) for d, day in reversed(days)], WRONG, 0.5)
        field.area([(1, 0), (100, 0), (100, -model.N), (1, -model.N)], THIS, 0.9)
        mark_extremes(field, days)
        if k % 2 == 0:
            field.label_up("sum of a dot (pushes)")
        if k // 2 == 1:
            field.label_across("race day")
    legend(canvas, 70, 574, ((THIS, "this driver: %s to 0, every day" % number(-model.N)), (WRONG, "the trainee's driver")))
    return canvas.svg()


def mark_extremes(field, days):
    for pick, side, down in ((min, 0, 15), (max, 1, -6)):
        d, day = pick(days, key=lambda entry: entry[1][side])
        anchor = "start" if d < 15 else "end" if d > 85 else "middle"
        field.text(d, day[side], number(day[side]), WRONG, anchor, down=down, bold=True)


def legend(canvas, x, y, entries):
    for colour, words in entries:
        canvas.rect(x, y - 10, 12, 12, colour)
        canvas.text(x + 18, y, words, 13, colour=INK)
        x += 40 + 7 * len(words)


# ---- when the board turns over

def turn_over_plot(curves):
    """The share of updates that have turned over by each moment; curves: name, colour, ms late of each update, where its name goes."""
    canvas = Canvas(860, 385, "Share of updates whose last line is out by each moment around the long beep")
    field = Axes(canvas, 70, 30, 760, 300, (-120, 280), (0, 100))
    field.ticks_up(range(0, 101, 25), percent)
    field.ticks_across(range(-120, 281, 40))
    field.floor()
    field.line([(0, 0), (0, 104)], SOFT, 1, "4 3")
    field.text(0, 104, "long beep", SOFT, "middle", down=-4)
    for name, colour, late, (u, v, anchor) in curves:
        counts, gone, points = Counter(late), 0, [(-120, 0)]
        for ms in sorted(counts):
            points.append((ms, 100 * gone / len(late)))
            gone += counts[ms]
            points.append((ms, 100 * gone / len(late)))
        field.line(points + [(280, 100)], colour, 2.5)
        field.text(u, v, name, colour, anchor, bold=True)
    field.label_across("last line of stage 4 goes out, ms after the long beep")
    field.label_up("updates", 50)
    return canvas.svg()


# ---- the frames of a stage

def frames_plot(drivers):
    """Left: frames in a stage. Right: what one update leaves on a dot that stays white. drivers: name, colour, frames."""
    canvas = Canvas(860, 370, "Frames in each stage, and what one update leaves on a dot that stays white")
    left = Axes(canvas, 70, 50, 300, 230, (11.5, 16.5), (0, 100))
    right = Axes(canvas, 490, 50, 340, 230, (-4.5, 4.5), (0, 100))
    canvas.text(70, 26, "Frames in a stage", 14, bold=True)
    canvas.text(490, 26, "Left over on a dot that stays white", 14, bold=True)
    for field, values, words in ((left, range(12, 17), "frames"), (right, range(-4, 5), "pushes left over by one update (0 is right)")):
        field.ticks_up(range(0, 101, 25), percent)
        field.ticks_across(values)
        field.label_across(words)
    for k, (_, colour, frames) in enumerate(drivers):
        stages = Counter(count for update in frames for count in update.counts)
        left_over = Counter(c[1] - c[0] + c[3] - c[2] for c, _ in frames)
        for field, counts in ((left, stages), (right, left_over)):
            for value, count in counts.items():
                if field.across[0] < value < field.across[1]:
                    field.bar(value + 0.27 * (k - 1), 0.25, 100 * count / sum(counts.values()), colour)
    for field, words in ((left, "stages"), (right, "updates")):
        field.floor()
        field.label_up(words, 50)
    legend(canvas, 70, 352, [(colour, name) for name, colour, _ in drivers])
    return canvas.svg()


# ---- boards

def runs(rows):
    """The runs of equal values along the rows: value, place, row and length."""
    found = []
    for y, row in enumerate(rows):
        x = 0
        while x < len(row):
            end = x
            while end < len(row) and row[end] == row[x]:
                end += 1
            found.append((row[x], x, y, end - x))
            x = end
    return found


def board(canvas, x, y, scale, rows, ground):
    """A panel's dots, given as rows of colours; the ground is not drawn dot by dot."""
    canvas.rect(x, y, PANEL.width * scale, PANEL.height * scale, ground, SOFT)
    along, down = runs(rows), runs(list(zip(*rows)))
    shapes = [(c, a, b, n, 1) for c, a, b, n in along] if len(along) <= len(down) else [(c, b, a, 1, n) for c, a, b, n in down]
    drawn = {}
    for colour, left, top, width, height in shapes:
        if colour != ground:
            drawn.setdefault(colour, []).append("M%d %dh%dv%dh-%dz" % (left, top, width, height, width))
    for colour in sorted(drawn):
        canvas.path("".join(drawn[colour]), colour, "translate(%d %d) scale(%s)" % (x, y, scale))


def shade(total, limit):
    """Grey for a dot pushed too often to black, blue for one pushed too often to white."""
    part = round(8 * min(abs(total), limit) / limit) / 8  # in eighths
    full = (0x30, 0x30, 0x30) if total < 0 else (0x1f, 0x5f, 0xd0)
    return "#%02x%02x%02x" % tuple(round(255 + (end - 255) * part) for end in full)


def ghosts_plot(followed):
    """What is left on boards that should all be white; followed: name and the sums of each kind of dot."""
    canvas = Canvas(860, 265, "Sums left on the boards at the end of the season, when all should be white")
    limit = max(abs(total) for _, sums in followed for total in sums)
    for k, (name, sums) in enumerate(followed):
        x = 20 + 210 * k
        board(canvas, x, 44, 1.5, bibs.dot_rows([shade(total, limit) for total in sums]), "#ffffff")
        canvas.text(x, 30, name, 13, bold=True)
        words = "every sum is 0" if min(sums) == max(sums) == 0 else "sums %s to %s" % (number(min(sums)), number(max(sums)))
        canvas.text(x, 208, words, 13)
    scale_of_shades(canvas, 20, 238, limit)
    return canvas.svg()


def scale_of_shades(canvas, x, y, limit):
    for k in range(-8, 9):
        canvas.rect(x + 150 + 18 * (k + 8), y - 11, 18, 14, shade(k * limit / 8, limit), GRID)
    canvas.text(x, y, "too often to black %s" % number(-limit), 12)
    canvas.text(x + 462, y, "+%d too often to white" % limit, 12)


def wire_plot(boards):
    """Boards after mistakes on the wire; boards: name, what is said under it, the sum of every dot."""
    canvas = Canvas(860, 265, "Bib %d as the glass shows it after mistakes on the wire" % WIRE_BIBS[-1])
    colour = {0: "#ffffff", -model.N: "#000000"}
    for k, (name, words, sums) in enumerate(boards):
        x = 20 + 210 * k
        rows = [[colour.get(total, "#1f5fd0" if total > 0 else WRONG) for total in row] for row in sums]
        board(canvas, x, 44, 1.5, rows, "#ffffff")
        canvas.text(x, 30, name, 13, bold=True)
        canvas.text(x, 208, words, 13)
    entries = (("#000000", "black, sum %s" % number(-model.N)), (WRONG, "neither: sum below 0"), ("#1f5fd0", "sum above 0"))
    legend(canvas, 20, 242, entries)
    return canvas.svg()


WIRE_BIBS = (12, 47)  # the two updates in which the mistakes on the wire are made
