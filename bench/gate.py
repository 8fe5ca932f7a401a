"""Measures what the proofs of the gate cost, crate by crate, and writes docs/GATE.md.

Usage, from the repository's root: python3 -m bench.gate [DIR | --check]. With DIR, a checkout of the state before a change, it writes nothing
and prints what each crate costs there and here. `--check` only says whether the page has every crate and its number of edits.

A crate's check is the CPU time, user and system, of `rt check` where all below it is proved, less that of a second call, which finds
nothing to prove. Two rounds run side by side, as two checks do in the gate (.ci/run), each crate after crate in a temporary folder of its own
in memory; target/ is left alone. On the page the lower time counts. There and here are the two rounds of one run, since a machine is
faster at one time than at another.
"""
import concurrent.futures
import glob
import os
import re
import shutil
import subprocess
import sys
import tempfile

from bench.run import processor
from docs.crates import floors, read

PAGE, TEMPLATE = "docs/GATE.md", "bench/GATE.template.md"
MEMORY = "/dev/shm" if os.access("/dev/shm", os.W_OK) else None


def cpu(command, folder):
    """CPU seconds of a command and of all that it starts."""
    with tempfile.TemporaryFile("w+") as said:
        process = subprocess.Popen(command, cwd=folder, env={**os.environ, "TMPDIR": folder}, stdout=said, stderr=subprocess.STDOUT)
        _, status, used = os.wait4(process.pid, 0)
        if status != 0:
            said.seek(0)
            sys.exit(said.read())
    return used.ru_utime + used.ru_stime


def edits_of(tree, crate):
    return len(glob.glob(f"{tree}/crates/{crate}/must-fail/*.edit"))


def one_round(tree):
    """crate: the CPU seconds of its check."""
    costs = {}
    with tempfile.TemporaryDirectory(dir=MEMORY) as folder:
        os.chmod(folder, 0o711)  # the programs are run as nobody
        shutil.copytree(f"{tree}/crates", f"{folder}/crates")
        shutil.copy(f"{tree}/crates.txt", folder)
        for crate in (crate for floor in floors(read(f"{tree}/crates.txt")) for crate in floor):
            check, at = ["rt", "check"], f"{folder}/crates/{crate}"
            costs[crate] = cpu(check, at) - cpu(check, at)
            print(f"{tree}: {crate} {costs[crate]:.1f} s", flush=True)
    return costs


def side_by_side(*trees):
    """Of each tree, crate: the CPU seconds of its check, and its edits."""
    with concurrent.futures.ThreadPoolExecutor() as pool:
        rounds = list(pool.map(one_round, trees))
    return [{crate: (costs[crate], edits_of(tree, crate)) for crate in costs} for tree, costs in zip(trees, rounds)]


def product(cost):
    seconds, edits = cost
    return seconds * edits


def whole(costs):
    """The CPU seconds of all checks and of all edits."""
    return sum(seconds for seconds, _ in costs.values()), sum(product(cost) for cost in costs.values())


def rows(costs):
    dearest = sorted(costs, key=lambda crate: -(costs[crate][0] + product(costs[crate])))
    return "\n".join(f"| `{crate}` | {costs[crate][0]:.1f} | {costs[crate][1]} | {product(costs[crate]):,.0f} |" for crate in dearest)


def compare(there, here):
    for crate in {**there, **here}:
        old, new = there.get(crate, (0, 0)), here.get(crate, (0, 0))
        print(f"{crate}: check {old[0]:.1f} -> {new[0]:.1f} s, edits {old[1]} -> {new[1]}, {product(old):,.0f} -> {product(new):,.0f} s")
    old, new = whole(there), whole(here)
    print(f"checks {old[0]:,.0f} -> {new[0]:,.0f} s, edits {old[1]:,.0f} -> {new[1]:,.0f} s, together {sum(old):,.0f} -> {sum(new):,.0f} s, "
          f"{sum(new) / sum(old):.3f}")


def page(costs):
    checks, edits = whole(costs)
    parts = {
        "MACHINE": processor(),
        "ROWS": rows(costs),
        "CRATES": str(len(costs)), "CHECKS": f"{checks:,.0f}",
        "EDITS": str(sum(edits for _, edits in costs.values())), "PRODUCT": f"{edits:,.0f}",
        "WHOLE": f"{checks + edits:,.0f}",
    }
    with open(TEMPLATE, encoding="ascii") as template:
        text = template.read()
    for name, value in parts.items():
        text = text.replace("{" + name + "}", value)
    return text


def check():
    with open(PAGE, encoding="ascii") as file:
        told = {crate: int(edits) for crate, edits in re.findall(r"^\| `(\w+)` \| [\d.]+ \| (\d+) \|", file.read(), re.M)}
    if told != {crate: edits_of(".", crate) for crate in read()}:
        sys.exit(f"{PAGE} has not the crates and edits that are there: run make gate-costs")


def main():
    if len(sys.argv) > 2:
        sys.exit("usage: python3 -m bench.gate [DIR | --check]")
    if sys.argv[1:] == ["--check"]:
        return check()
    if sys.argv[1:]:
        return compare(*side_by_side(sys.argv[1], "."))
    first, second = side_by_side(".", ".")
    with open(PAGE, "w", encoding="ascii") as file:
        file.write(page({crate: min(first[crate], second[crate]) for crate in first}))


if __name__ == "__main__":
    main()
