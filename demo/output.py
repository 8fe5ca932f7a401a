"""What the demo prints: text that may stop being read, a board with its timeline, and a progress line."""
import itertools
import os
import shutil
import sys
import textwrap

from demo import picture

COLUMNS = 112  # of text, and of the output where it is no terminal


class OutputClosed(Exception):
    """Nobody reads the output any more."""


def open_streams():
    """The output is UTF-8 for the blocks. A stream that was closed from the start goes nowhere."""
    sys.stdout = sys.stdout or open(os.devnull, "w")
    sys.stderr = sys.stderr or open(os.devnull, "w")
    sys.stdout.reconfigure(encoding="utf-8")


def say(text):
    try:
        print(text, flush=True)
    except BrokenPipeError:
        raise OutputClosed from None


def columns():
    return shutil.get_terminal_size((COLUMNS, 24)).columns


def say_wrapped(text):
    say(textwrap.fill(text, min(columns(), COLUMNS)))


def discard_output():
    """What is still to be written goes nowhere, so that the end of the program does not fail on it."""
    os.dup2(os.open(os.devnull, os.O_WRONLY), sys.stdout.fileno())


def board_text(rows, beside):
    """The board in a box and text beside it, or below it where there is no room."""
    inside = picture.blocks(rows)
    width = len(inside[0])
    if sys.stdout.isatty() and "NO_COLOR" not in os.environ:
        inside = ["\x1b[30;107m%s\x1b[0m" % line for line in inside]  # black on white, whatever the terminal's colours
    box = ["┌%s┐" % ("─" * width)] + ["│%s│" % line for line in inside] + ["└%s┘" % ("─" * width)]
    if width + 4 + max(map(len, beside)) > columns():
        return "\n".join(box + beside)
    box += [" " * (width + 2)] * (len(beside) - len(box))
    return side_by_side(box, beside, "%s  %s")


def side_by_side(left, right, layout):
    return "\n".join((layout % pair).rstrip() for pair in itertools.zip_longest(left, right, fillvalue=""))


class Progress:
    """A line on a terminal that is written over as frames are sent; elsewhere one plain line."""

    def __init__(self, title, frames_in_all):
        self.title, self.frames_in_all = title, frames_in_all
        self.live = sys.stderr.isatty()
        self.width = 0

    def __enter__(self):
        if self.live:
            self.show(0)
        else:
            self.put(self.title + " ...\n")
        return self

    def show(self, frames):
        if self.live:
            text = "%s  [%-24s]  frame %d of %d" % (
                self.title, "#" * (24 * frames // self.frames_in_all), frames, self.frames_in_all)
            self.width = len(text)
            self.put("\r" + text)

    def __exit__(self, *_):
        if self.live:
            self.put("\r%s\r" % (" " * self.width))

    @staticmethod
    def put(text):
        try:
            sys.stderr.write(text)
            sys.stderr.flush()
        except BrokenPipeError:
            pass  # the run goes on without it
