"""Runs a program on given inputs and compares what it writes. Used by the compare.py files."""
import subprocess
import sys
import tempfile
import time

SECONDS = 30  # a program that takes longer counts as different


class Comparison:
    def __init__(self, path):
        self.path = path
        self.passed = 0
        self.failed = 0
        self.refused = 0
        self.statuses = set()

    def check(self, name, data, expected, by="pipe"):
        """by: "pipe", "file", or the length of pieces that come one after another."""
        status, output, errors = self._run(data, by)
        self.statuses.add(status)
        same = output == expected and not errors and status is not None and status >= 0
        if same:
            self.passed += 1
            self.refused += expected.startswith(b"refused ")
        else:
            self.failed += 1
            if self.failed == 1:
                self._show(name, data, expected, status, output, errors)
        return output

    def fail(self, text):
        self.failed += 1
        if self.failed == 1:
            print("first difference:", text)

    def _run(self, data, by):
        """The exit status (None: no end), standard output and standard error."""
        try:
            if by == "pipe":
                done = subprocess.run([self.path], input=data, capture_output=True, timeout=SECONDS)
            elif by == "file":
                with tempfile.TemporaryFile() as file:
                    file.write(data)
                    file.seek(0)
                    done = subprocess.run([self.path], stdin=file, capture_output=True, timeout=SECONDS)
            else:
                return self._run_in_pieces(data, by)
        except subprocess.TimeoutExpired as end:
            return None, end.stdout or b"", end.stderr or b""
        return done.returncode, done.stdout, done.stderr

    def _run_in_pieces(self, data, length):
        """Each piece is written a moment after the one before it, so that reads come back short."""
        with subprocess.Popen([self.path], stdin=subprocess.PIPE, stdout=subprocess.PIPE,
                              stderr=subprocess.PIPE, bufsize=0) as process:
            try:
                for at in range(0, len(data), length):
                    process.stdin.write(data[at:at + length])
                    time.sleep(0.002)
            except BrokenPipeError:
                pass  # the program has answered without reading on
            try:
                output, errors = process.communicate(timeout=SECONDS)
            except subprocess.TimeoutExpired:
                process.kill()
                output, errors = process.communicate()
                return None, output, errors
            return process.returncode, output, errors

    def _show(self, name, data, expected, status, output, errors):
        print(f"first difference: {name}")
        print(f"  input, {len(data)} bytes: {_short(data)}")
        print(f"  exit status: {'no end' if status is None else status}")
        at = next((i for i, pair in enumerate(zip(expected, output)) if pair[0] != pair[1]),
                  min(len(expected), len(output)))
        if output != expected:
            print(f"  outputs differ from byte {at} on")
        print(f"  expected, {len(expected)} bytes: {_short(expected)}")
        print(f"  written, {len(output)} bytes: {_short(output)}")
        if errors:
            print(f"  on standard error: {errors[:300]!r}")

    def summary(self, what, least):
        """Prints the last lines and answers the exit status."""
        inputs = self.passed + self.failed
        if inputs < least:
            self.fail(f"only {inputs} inputs, at least {least} are wanted")
        statuses = ", ".join(sorted(str(status) for status in self.statuses))
        print(f"{what}: {inputs} inputs, {self.passed - self.refused} taken, {self.refused} refused, "
              f"exit status {statuses}")
        print(f"{self.passed} passed, {self.failed} failed")
        return 1 if self.failed else 0


def _short(data):
    """Bytes for a message: text as text, others in hexadecimal, both cut."""
    if data and all(byte == 10 or 32 <= byte < 127 for byte in data):
        return repr(data[:400].decode("ascii")) + (" ..." if len(data) > 400 else "")
    return data[:700].hex(" ").upper() + (" ..." if len(data) > 700 else "")


def path_argument(module):
    if len(sys.argv) != 2:
        sys.exit(f"usage, from the repository's root: python3 -m {module} PROGRAM")
    return sys.argv[1]
