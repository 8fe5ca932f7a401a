"""The settings files of examples/, which are kept as hexadecimal text; # begins a comment."""

PATHS = {"1.44": "examples/settings_1_44.hex", "2": "examples/settings_2_0.hex", "2.7": "examples/settings_2_7.hex"}
WRITE = 0x57
DATA_BYTES = {0x01: 8, 0x09: 2}  # of a register; every other one takes one byte


def path(panel):
    return PATHS[panel.name]


def read(panel):
    """The bytes of a panel's settings file."""
    with open(path(panel), encoding="ascii") as text:
        return bytes.fromhex(" ".join(line.split("#")[0] for line in text))


def writes(file):
    """How many register writes an accepted settings file holds."""
    at, found = 2, 0
    for _ in ("start", "stop"):
        count, at = file[at], at + 1
        for _ in range(count):
            if file[at] == WRITE:
                found += 1
                at += 2 + DATA_BYTES.get(file[at + 1], 1)
            else:
                at += 3
    return found
