"""Compares the program that mends bitmap files with the reference's program, report.c.

Usage, from the repository's root: python3 -m tests.mending.compare target/bin/bitmap_mend target/tests/mend_report
"""
import pathlib
import random
import subprocess
import sys
import tempfile

from tests.panels import PANELS

BITMAPS = pathlib.Path(__file__).resolve().parents[1] / "bitmaps"
SECONDS = 30  # a program that takes longer counts as different
AT_LEAST = {0: 100, 4: 50, 14: 15}

# A 1.44" file of which only the header is left, with a wrong length, size and count, and what is told of it.
CUT = bytes.fromhex("424D 3E000000 00000000 3E000000 28000000 80000000 60000000 01000100 00000000 01060000 00000000 00000000"
                    "00010000 00000000 FFFFFF00 00000000")
TOLD = b"3 00 06\n34 01 00\n47 01 00\nadded 62 1536\n"


def number(file, at):
    return int.from_bytes(file[at:at + 4], "little")


def put(file, at, value):
    return file[:at] + (value % 2 ** 32).to_bytes(4, "little") + file[at + 4:]


def run(program, words, file, by):
    """Exit status (None: no end), standard output and standard error."""
    try:
        if by == "pipe":
            done = subprocess.run([program, *words], input=file, capture_output=True, timeout=SECONDS)
        else:
            with tempfile.TemporaryFile() as stream:
                stream.write(file)
                stream.seek(0)
                done = subprocess.run([program, *words], stdin=stream, capture_output=True, timeout=SECONDS)
    except subprocess.TimeoutExpired:
        return None, b"", b""
    return done.returncode, done.stdout, done.stderr


class MendTest:
    def __init__(self, program, reference):
        self.program, self.reference = program, reference
        self.rng = random.Random(2611)
        self.passed = self.failed = 0
        self.given = dict.fromkeys(AT_LEAST, 0)

    def judge(self, same, name):
        if same:
            self.passed += 1
            return
        self.failed += 1
        if self.failed == 1:
            print("first difference:", name)

    def compare(self, name, words, file, by="pipe"):
        """Compares with the reference, and where the file is mended once more with the output as input."""
        status, output, told = run(self.program, words, file, by)
        _, expected, should_tell = run(self.reference, words, file, "pipe")
        same = status is not None and status >= 0 and (output, told) == (expected, should_tell)
        self.judge(same, f"{name}, {' '.join(words)}, {len(file)} bytes\n  told {told[:200]!r}\n  should {should_tell[:200]!r}")
        refused = should_tell.startswith(b"refused ")
        self.given[int(should_tell.split()[1]) if refused else 0] += 1
        if refused:
            self.judge(output == b"", f"{name}: a refusal puts nothing out")
        else:
            self.judge(run(self.program, words, output, "pipe")[1:] == (output, b""), f"{name}, a second time")

    def typed(self):
        """Answers typed by hand."""
        _, output, told = run(self.program, ["0"], CUT, "pipe")
        self.judge(told == TOLD, f"the typed report: {told!r}")
        self.judge(len(output) == 1598 and output[62:] == bytes(1536), "white where white is first")
        self.judge(run(self.program, [], CUT, "pipe")[1:] == (b"", b"refused 14\n"), "no argument")
        self.judge(run(self.program, ["0"], CUT[:61], "pipe")[1:] == (b"", b"refused 4\n"), "61 bytes")

    def arguments(self, file):
        """One digit names a panel; nothing else does."""
        for words in ([], [""], ["3"], ["9"], ["00"], ["01"], ["256"], ["-0"], ["+1"], [" 1"], ["1 "], ["x"], ["0x1"], ["/"], [":"],
                      ["1", "2"], ["2", "1"], ["0", ""], ["1" * 5000]):
            self.compare("arguments", words, file)

    def damaged(self, file):
        """A file with some of the damages of the request, or others."""
        for _ in range(self.rng.randrange(4)):
            at = self.rng.choice([2, 6, 34, 46])
            file = put(file, at, self.rng.choice([number(file, at) + 1, 1, 2, 3, self.rng.randrange(2 ** 32)]))
        if self.rng.random() < 0.15:
            at = self.rng.randrange(min(62, len(file)))
            file = file[:at] + self.rng.randbytes(1) + file[at + 1:]
        if self.rng.random() < 0.3:
            at = self.rng.randrange(len(file))
            file = file[:at] + self.rng.randbytes(30) + file[at + 30:]
        return file[:self.rng.choice([len(file), len(file), 62, 61, self.rng.randrange(62, len(file) + 1)])]

    def of_tools(self, paths):
        """Files of real tools: as they are, damaged, too long, and for another panel."""
        for path in paths:
            file = path.read_bytes()
            panel = next(i for i, p in enumerate(PANELS) if 62 + p.height * p.stride == len(file))
            self.compare(f"{path.name} as it is", [str(panel)], file, "file")
            self.compare(f"{path.name}, one byte more", [str(panel)], file + b"\0")
            self.compare(f"{path.name}, a megabyte", [str(panel)], file.ljust(1 << 20, b"\0"))
            self.compare(f"{path.name}, another panel", [str((panel + 1) % 3)], file)
            for _ in range(14):
                self.compare(f"{path.name}, damaged", [str(panel)], self.damaged(file), self.rng.choice(["pipe", "file"]))

    def summary(self):
        print("numbers given:", ", ".join(f"{n}: {count} times" for n, count in self.given.items()))
        for n, least in AT_LEAST.items():
            self.judge(self.given[n] >= least, f"{n} was given {self.given[n]} times only")
        print(f"{self.passed} passed, {self.failed} failed")
        return 1 if self.failed else 0


def main():
    if len(sys.argv) != 3:
        sys.exit("usage, from the repository's root: python3 -m tests.mending.compare PROGRAM REFERENCE")
    test = MendTest(sys.argv[1], sys.argv[2])
    paths = sorted(BITMAPS.glob("*.bmp"))
    test.typed()
    test.arguments(paths[0].read_bytes())
    test.of_tools(paths)
    sys.exit(test.summary())


if __name__ == "__main__":
    main()
