"""Compares the replay program with reference.py on fixed and random scripts, and reads the dots' sums from the bytes handed out.

Usage, from the repository's root: python3 -m tests.replay.compare PROGRAM [SEED]
"""
import itertools
import os
import subprocess
import sys
import time
from collections import Counter

from simulator.panel import Glass
from tests.panels import PANELS
from tests.program import Comparison
from tests.replay import examples, reference, scripts

SEED = "1"
LEAST_SCRIPTS, LEAST_CALLS = 200, 500_000
# the numbers that each call refuses with; every one of them must be given, and no other
REFUSALS = {
    "open": (2, 1), "lend": (), "region": (13, 1, 3, 7, 15, 5, 6), "bitmap": (13, 1, 3, 7, 15, 4), "begin": (13, 1, 3, 7, 15, 16),
    "chunk": (13, 1, 17, 4), "finish": (13, 1, 17, 4), "cancel": (13, 1, 17), "start": (13, 1, 8, 12, 3, 15), "poll": (13, 1, 9, 11, 10),
    "abandon": (13, 1, 9), "write": (13, 1, 3, 11), "summary": (13, 3),
}
NUMBERS = sorted({0}.union(*REFUSALS.values()))
LEAST_GIVEN = 100  # of each of 15, 16, 17, of 4 by a fill, and of 13 and 3 by a summary
FAILED_SCRIPT = "target/tests/replay_failed.txt"
SECONDS = 60  # a program that takes longer for a script has failed


class Sums:
    """The dots' sums of one script, from the program's answers alone. Only the shown picture at a done is the reference's."""

    def __init__(self, shown):
        self.shown = shown
        self.glass = None
        self.under_way = False

    def take(self, index, call, answer):
        """One call and its answer. Gives back what is wrong, or None."""
        if answer.startswith(("0 line ", "0 write ")):
            return self.handed_out(bytes.fromhex(answer.split(" ")[2]))
        if answer == "0 done":
            self.under_way = False
            return self.at_rest(self.shown.get(index))
        if answer == "0" and call.startswith("open "):
            self.glass = Glass(PANELS[int(call.split(" ")[2][2:4], 16)])  # its panel is the file's second byte
            self.under_way = False
        elif answer == "0" and call.startswith("start "):
            self.under_way = True
        elif answer == "0" and call == "abandon":
            self.under_way = False
        return None

    def handed_out(self, data):
        if not self.under_way:
            return "something was handed out without a run under way"
        self.glass.send(data)
        if self.glass.lowest < -self.glass.panel.frames or self.glass.highest > 0:
            return f"a dot's sum is not between -N and 0: sums go from {self.glass.lowest} to {self.glass.highest}"
        return None

    def at_rest(self, shown):
        """0 where the shown picture is white and -N where it is black. This holds until the next line."""
        sums = set().union(*self.glass.sums)
        if not sums <= {0, -self.glass.panel.frames}:
            return f"sums at rest: {sorted(sums)}"
        return None if b"".join(self.glass.picture()) == shown else "the sums do not show slot 0"


class Results:
    def __init__(self, program):
        self.program = program
        self.passed = self.failed = 0
        self.scripts = self.calls = 0
        self.given = Counter()  # (name of the call, number)
        self.polls = Counter()
        self.places = Counter()
        self.timed = ""         # of the largest panel, which comes last

    def judge(self, good, message):
        """message: a function, called for the first fault alone."""
        self.passed += good
        self.failed += not good
        if not good and self.failed == 1:
            print("first difference: " + message())
        return good

    def compare(self, script):
        """Compares a script's answers up to the first difference."""
        answers, seconds = self.run(script)
        self.scripts += 1
        self.calls += len(script.calls)
        self.places.update(script.places)
        sums = Sums(script.shown)
        for index, (call, given) in enumerate(zip(script.calls, answers)):
            self.count(call, given)
            if not self.same(script, index, given, sums):
                break
        counts = len(answers), len(script.calls)
        self.judge(counts[0] == counts[1], lambda: "%s: %d answers to %d calls" % (title(script), *counts))
        for what, found, typed in script.facts:
            self.judge(found == typed, lambda: f"{title(script)}, {what}: {found}, typed by hand {typed}")
        if script.name == "there_and_back":
            lines = sum(answer.startswith("0 line") for answer in answers)
            self.timed = f"two {script.store.panel.name} inch runs through replay: {lines} lines, {seconds:.2f} s"

    def same(self, script, index, given, sums):
        """Whether a call's answer is right: as the reference has it, as it was typed, and by the dots' sums."""
        def found(good, what):
            return self.judge(good, lambda: self.explain(script, index, given, what))

        expected, typed = script.answers[index], script.typed.get(index)
        if not found(given == expected, "expected: " + cut(expected)):
            return False
        if typed and not found(as_typed(given, typed), "typed by hand: " + cut(typed)):
            return False
        fault = sums.take(index, script.calls[index], given)
        return found(not fault, f"sums: {fault}") if fault or given == "0 done" else True

    def run(self, script):
        """The program's answers, and the seconds it took."""
        began = time.time()
        try:
            ran = subprocess.run([self.program], input=as_bytes(script.calls), capture_output=True, timeout=SECONDS)
        except subprocess.TimeoutExpired:
            sys.exit(f"{title(script)}: no end after {SECONDS} s")
        seconds = time.time() - began
        good = ran.returncode == 0 and not ran.stderr
        self.judge(good, lambda: f"{title(script)}: exit status {ran.returncode}, on standard error {ran.stderr[:300]}")
        return ran.stdout.decode("latin-1").split("\n")[:-1], seconds

    def count(self, call, answer):
        words = answer.split(" ", 2)
        name = "no call" if answer == "?" else call.split(" ", 1)[0]
        self.given[name, words[0]] += 1
        if name == "poll" and words[0] == "0":
            self.polls[words[-1] if len(words) < 3 else words[1]] += 1

    def explain(self, script, index, given, what):
        """Where an answer is wrong and how to see it again. The script is kept."""
        os.makedirs(os.path.dirname(FAILED_SCRIPT), exist_ok=True)
        with open(FAILED_SCRIPT, "wb") as file:
            file.write(as_bytes(script.calls))
        return "\n  ".join((
            f"script {self.scripts}, {title(script)}, call {index + 1}: {script.calls[index][:200]!r}",
            "given: " + cut(given), what, f"to see it again: {self.program} < {FAILED_SCRIPT} | sed -n {index + 1}p",
            f"the reference: python3 -m tests.replay.reference < {FAILED_SCRIPT} | sed -n {index + 1}p"))

    def other_inputs(self, script):
        """The same answers where the script comes from a file, in pieces, and without its last 0A."""
        comparison = Comparison(self.program)
        answers = as_bytes(script.answers)
        comparison.check(script.name + " from a file", as_bytes(script.calls), answers, by="file")
        comparison.check(script.name + " in pieces", as_bytes(script.calls), answers, by=4099)
        comparison.check(script.name + " without the last 0A", as_bytes(script.calls)[:-1], answers)
        comparison.check("no calls", b"", b"")
        self.passed += comparison.passed
        self.failed += comparison.failed

    def table(self):
        numbers = [*map(str, NUMBERS), "?"]
        print("given     " + "".join(f"{number:>7}" for number in numbers))
        for name in (*REFUSALS, "no call"):
            print(f"{name:10}" + "".join(f"{self.given[name, number] or '-':>7}" for number in numbers))
        print("in all    " + "".join(f"{self.in_all(number):>7}" for number in numbers))
        print("polls: " + ", ".join(f"{kind} {self.polls[kind]}" for kind in ("write", "line", "wait", "done")))

    def in_all(self, number):
        return sum(count for (_, given), count in self.given.items() if given == number)

    def judge_numbers(self):
        """Each call must have given the numbers of its own and no others, and those of fills and summaries often enough."""
        wanted = {(name, str(number)) for name, numbers in REFUSALS.items() for number in (0, *numbers)} | {("no call", "?")}
        given = {pair for pair, count in self.given.items() if count}
        self.judge(wanted <= given, lambda: f"never given: {sorted(wanted - given)}")
        self.judge(given <= wanted, lambda: f"given by a call that does not have it: {sorted(given - wanted)}")
        counts = {number: self.in_all(number) for number in ("15", "16", "17")}
        counts["4 by a fill"] = self.given["chunk", "4"] + self.given["finish", "4"]
        counts.update((f"{number} by a summary", self.given["summary", number]) for number in ("13", "3"))
        for number, count in counts.items():
            self.judge(count >= LEAST_GIVEN, lambda: f"{number} was given {count} times, at least {LEAST_GIVEN} are wanted")

    def summary(self):
        print(f"{self.scripts} scripts, {self.calls} calls")
        self.table()
        self.judge_numbers()
        for place in scripts.PLACES_TO_REACH:
            print(f"{place}: {self.places[place]}")
            self.judge(self.places[place] > 0, lambda: f"never reached: {place}")
        enough = self.scripts >= LEAST_SCRIPTS and self.calls >= LEAST_CALLS
        self.judge(enough, lambda: f"at least {LEAST_SCRIPTS} scripts and {LEAST_CALLS} calls are wanted")
        print(self.timed)
        print(f"{self.passed} passed, {self.failed} failed")
        return 1 if self.failed else 0


def as_typed(given, typed):
    return given.startswith(typed[:-1]) if typed.endswith("*") else given == typed


def as_bytes(lines):
    return "".join(line + "\n" for line in lines).encode("latin-1")


def title(script):
    return f"{script.name} with seed {script.seed}"


def cut(text):
    return text if len(text) <= 300 else text[:300] + f" ... ({len(text)} characters)"


def main():
    if len(sys.argv) not in (2, 3):
        sys.exit("usage: python3 -m tests.replay.compare PROGRAM [SEED]")
    results = Results(sys.argv[1])
    seed = (sys.argv[2:] or [SEED])[0]
    for script in itertools.chain(examples.fixed_scripts(), scripts.random_scripts(seed)):
        results.compare(script)
        if script.name == "malformed_lines":
            results.other_inputs(script)
        if sys.stderr.isatty():
            print(f"{results.scripts} scripts, {results.calls} calls", end="\r", file=sys.stderr, flush=True)
    sys.exit(results.summary())


if __name__ == "__main__":
    main()
