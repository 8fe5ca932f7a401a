"""Runs the gate's script on a toolchain and on tests that fail in turn: 'N passed, 0 failed' is its last line, and its status 0, only
where both passed.

Usage, from the repository's root: python3 -m tests.gate
"""
import os
import shutil
import subprocess
import sys
import tempfile

GOOD = "rt: ok; handles allowed: none; must-fail edits: 1 refused; every proof was done in this run\n3 passed, 0 failed"
# what `rt ci` says, its status, the status of the tests; whether all passed, and whether the tests are run
CASES = {
    "all passed": (GOOD, 0, 0, True, True),
    "a test fails": (GOOD, 0, 1, False, True),
    "a crate is not proved": ("rt: one NOT PROVED (exit 1, 2 s)\nrt: FAILED: one\n2 passed, 1 failed", 1, 0, False, False),
    "an edit is not refused": ("must-fail one/edit: NOT REFUSED\nrt: FAILED: one/edit\n2 passed, 1 failed", 1, 0, False, False),
    "an edit is bad": (GOOD.replace("1 refused", "1 refused, 1 bad"), 0, 0, False, False),
    "a crate is not listed": ("in no crate that crates.txt lists\nrt: FAILED: lost-files\n3 passed, 1 failed", 1, 0, False, False),
    "the toolchain fails": ("rt: no toolchain for this machine", 2, 0, False, False),
    "the toolchain fails after its last line": (GOOD, 2, 0, False, False),
    "the toolchain says nothing": ("", 0, 0, False, True),
}


def write(path, text):
    with open(path, "w", encoding="ascii") as file:
        file.write(text)
    os.chmod(path, 0o755)


def gate(said, status, tests):
    """The status and the lines of the gate, with a toolchain and tests that do as they are told."""
    with tempfile.TemporaryDirectory() as folder:
        os.makedirs(f"{folder}/.ci")
        os.makedirs(f"{folder}/bin")
        shutil.copy(".ci/run", f"{folder}/.ci")
        write(f"{folder}/bin/rt", f"#!/bin/sh\ncat <<'END'\n{said}\nEND\nexit {status}\n")
        write(f"{folder}/Makefile", f"tests:\n\t@echo tests are run; exit {tests}\n")
        ran = subprocess.run(["bash", f"{folder}/.ci/run"], env={**os.environ, "PATH": f"{folder}/bin:{os.environ['PATH']}"},
                             stdout=subprocess.PIPE, stderr=subprocess.DEVNULL, text=True)
        return ran.returncode, ran.stdout.splitlines()


def main():
    wrong = 0
    for name, (said, status, tests, passes, runs) in CASES.items():
        code, lines = gate(said, status, tests)
        told = lines[-1:] == ["3 passed, 0 failed"]
        if (code == 0, told, "tests are run" in lines) != (passes, passes, runs) or (not passes and "3 passed, 0 failed" in lines):
            wrong += 1
            print(f"where {name} the gate ends with status {code} and prints {lines}")
    print(f"{len(CASES) - wrong} passed, {wrong} failed")
    sys.exit(wrong > 0)


main()
