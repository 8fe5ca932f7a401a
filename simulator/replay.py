"""Makes calls on a store through the proved `replay` program: a line of text for each call, a line for its answer."""
import subprocess

PROGRAM = "target/bin/replay"


class Replay:
    """A store in a program of its own, asked call by call."""

    def __init__(self, program=PROGRAM):
        self.process = subprocess.Popen([program], stdin=subprocess.PIPE, stdout=subprocess.PIPE)

    def __enter__(self):
        return self

    def __exit__(self, *_):
        self.process.stdin.close()
        self.process.wait()
        self.process.stdout.close()

    def call(self, line):
        """The answer to one line of a script."""
        self.process.stdin.write(line.encode("ascii") + b"\n")
        self.process.stdin.flush()
        return self.process.stdout.readline().decode("ascii").rstrip("\n")

    def poll(self, tick):
        """A poll: its kind (`write`, `line`, `wait`, `done` or `refused`) and the bytes, the ms or the number."""
        words = self.call("poll %d" % (tick % 2 ** 32)).split(" ")
        if len(words) == 1:
            return "refused", int(words[0])
        if words[1] == "wait":
            return "wait", int(words[2])
        return words[1], bytes.fromhex(words[2]) if len(words) == 3 else b""
