"""Plots as SVG text: a canvas with text, lines, areas and bars, and axes that turn numbers into places on it."""
from xml.sax.saxutils import escape

INK, SOFT, GRID = "#222222", "#666666", "#dddddd"
FONT = "Helvetica, Arial, 'DejaVu Sans', sans-serif"
MINUS = "\u2212"


def number(value):
    """A whole number for a reader: with a true minus sign."""
    return str(value).replace("-", MINUS)


def place(value):
    """A place on the canvas, to a tenth of a unit."""
    return ("%.1f" % value).rstrip("0").rstrip(".")


class Canvas:
    def __init__(self, width, height, title):
        self.width, self.height, self.title = width, height, title
        self.parts = []

    def text(self, x, y, words, size=13, anchor="start", colour=INK, bold=False, turned=False):
        weight = ' font-weight="bold"' if bold else ""
        turn = ' transform="rotate(-90 %s %s)"' % (place(x), place(y)) if turned else ""
        self.parts.append('<text x="%s" y="%s" font-size="%d" text-anchor="%s" fill="%s"%s%s>%s</text>'
                          % (place(x), place(y), size, anchor, colour, weight, turn, escape(words)))

    def line(self, points, colour=INK, width=1, dashes=None):
        dash = ' stroke-dasharray="%s"' % dashes if dashes else ""
        self.parts.append('<polyline points="%s" fill="none" stroke="%s" stroke-width="%s"%s/>'
                          % (points_text(points), colour, place(width), dash))

    def area(self, points, colour, opacity=1.0):
        self.parts.append('<polygon points="%s" fill="%s" fill-opacity="%s"/>' % (points_text(points), colour, place(opacity)))

    def rect(self, x, y, width, height, colour, border=None):
        stroke = ' stroke="%s"' % border if border else ""
        self.parts.append('<rect x="%s" y="%s" width="%s" height="%s" fill="%s"%s/>'
                          % (place(x), place(y), place(width), place(height), colour, stroke))

    def path(self, d, colour, transform):
        self.parts.append('<path d="%s" fill="%s" transform="%s" shape-rendering="crispEdges"/>' % (d, colour, transform))

    def svg(self):
        head = ('<svg xmlns="http://www.w3.org/2000/svg" viewBox="0 0 %d %d" width="%d" height="%d" role="img" font-family="%s">'
                % (self.width, self.height, self.width, self.height, FONT))
        ground = '<rect width="%d" height="%d" fill="#ffffff"/>' % (self.width, self.height)
        return "\n".join([head, "<title>%s</title>" % escape(self.title), ground] + self.parts + ["</svg>", ""])


def points_text(points):
    return " ".join("%s,%s" % (place(x), place(y)) for x, y in points)


class Axes:
    """A field of a canvas at x, y with the ranges of its two axes, each a pair of numbers."""

    def __init__(self, canvas, x, y, width, height, across, up):
        self.canvas, self.x, self.y, self.width, self.height = canvas, x, y, width, height
        self.across, self.up = across, up

    def at(self, u, v):
        low, high = self.across
        bottom, top = self.up
        return (self.x + self.width * (u - low) / (high - low), self.y + self.height * (top - v) / (top - bottom))

    def ticks_across(self, values, words=number):
        for value in values:
            x, y = self.at(value, self.up[0])
            self.canvas.line([(x, y), (x, y + 4)], SOFT)
            self.canvas.text(x, y + 17, words(value), 12, "middle", SOFT)

    def ticks_up(self, values, words=number):
        for value in values:
            x, y = self.at(self.across[0], value)
            self.canvas.line([(x, y), (x + self.width, y)], GRID)
            self.canvas.text(x - 6, y + 4, words(value), 12, "end", SOFT)

    def floor(self):
        self.canvas.line([self.at(self.across[0], self.up[0]), self.at(self.across[1], self.up[0])], SOFT)

    def label_across(self, words):
        self.canvas.text(self.x + self.width / 2, self.y + self.height + 36, words, 13, "middle")

    def label_up(self, words, away=44):
        self.canvas.text(self.x - away, self.y + self.height / 2, words, 13, "middle", turned=True)

    def line(self, points, colour, width=2, dashes=None):
        self.canvas.line([self.at(u, v) for u, v in points], colour, width, dashes)

    def area(self, points, colour, opacity=1.0):
        self.canvas.area([self.at(u, v) for u, v in points], colour, opacity)

    def text(self, u, v, words, colour=INK, anchor="start", right=0, down=0, bold=False):
        x, y = self.at(u, v)
        self.canvas.text(x + right, y + down, words, 13, anchor, colour, bold)

    def bar(self, u, width, v, colour):
        """A bar of height v whose middle stands at u."""
        left, top = self.at(u - width / 2, v)
        right, bottom = self.at(u + width / 2, 0)
        self.canvas.rect(left, top, right - left, max(bottom - top, 0), colour)
