#!/usr/bin/env python3
"""Brings the repository's own definitions and lemmas to one spelling: words in snake case, types and modules in camel case.

usage: python3 tools/snake_names.py [--check]        at the top of the repository

Two rules make the table of names. A word of camel case that begins with a small letter becomes snake case, wherever a proof file, a
contract or an edit has it. In a declared name of a definition, a field or a lemma a dash stays where it joins the names of two
definitions, as in `length-tabulate`; a plain word hangs on by `_`, as in `tabulate_cong`. Names that a table below gives are taken from
there. Names of Rust's source are already in snake case and are not touched. --check prints the table and what would fall together, and
writes nothing.
"""

import glob
import os
import re
import sys

WORD = re.compile(r"[^\s(){}.;,@\"«»`:=→λ×≡≤<+*/%]+")
COMMENT = re.compile(r"--[^\n]*")
LIST_WORDS = set(
    "length take drop append set get_or replicate map reverse filter sum add mul sub div mod le lt eq min max suc pred not xor "
    "slice_set slice_index bit_and bit_or shl shr".split()
)
# Definitions whose names are plain words behind another name.
PLAIN = set("more next none own left right end some all first last every tied write picture kept loop black white dot inv".split())
BY_HAND = {"get_d_tabulate": "get_or-tabulate", "store_Bytes": "store_bytes"}
# Fields with the name of another crate's lemma.
FIELDS = {("finish_panel", "goes_on")}


def snake(word):
    """A word of camel case in snake case; a run of capitals is one word."""
    word = re.sub(r"([a-z0-9])([A-Z])", r"\1_\2", word)
    return word.lower()


def read(path):
    with open(path, encoding="utf-8") as file:
        return file.read()


def proof_files():
    found = []
    for top in ("specs", "proofs"):
        found += glob.glob(f"crates/*/{top}/**/*.antt", recursive=True)
    return sorted(f for f in found if "/out/" not in f)


def declared(path, fields=True):
    """The names that a file declares: definitions and lemmas, and constructors and fields too."""
    text = COMMENT.sub("", read(path))
    names = set()
    inside = None
    for line in text.split("\n"):
        depth = len(line) - len(line.lstrip())
        if line.strip() and inside is not None and depth <= inside:
            inside = None
        if re.match(r"\s*(?:pattern |unfoldable |abbrev |pub )*(?:data|record) ", line):
            inside = depth
        it = re.match(r"\s*(?:(?:abbrev|unfoldable|pattern|pub|data|record)\s+)*((?:[^\s:(){}]+\s+)*[^\s:(){}]+)\s*(?:\{[^}]*\}\s*)?:\s", line + " ")
        if it and not line.lstrip().startswith(("use ", "let ", "λ", "→", "module ")) and (fields or inside is None):
            names |= set(it.group(1).split())
    return names


def definitions(path):
    """The functions on values that a file of specs/ defines."""
    return {snake(n) for n in declared(path) if re.match(r"[a-z]", n) and "-" not in n}


def table():
    known = set(LIST_WORDS)
    own = set()
    lemmas = set()
    camel = set()
    for path in proof_files():
        text = COMMENT.sub("", read(path))
        camel |= {w for w in WORD.findall(text) if re.match(r"[a-z][^A-Z]*[A-Z]", w) and re.match(r"^[A-Za-z0-9_'′₀-₉-]+$", w)}
        if "/specs/" in path:
            known |= definitions(path)
        # What stands in the folder of one function has names that the prover gives.
        if "/specs/" in path or os.path.dirname(path).endswith("/proofs"):
            own |= declared(path)
            lemmas |= declared(path, fields=False)
    known -= PLAIN
    names = {}
    for name in sorted(camel | own):
        if not re.match(r"[a-z]", name):
            continue
        parts = [snake(p) for p in name.split("-")]
        new = parts[0]
        for before, part in zip(parts, parts[1:]):
            new += ("-" if name not in own or before in known and part in known else "_") + part
        names[name] = BY_HAND.get(name) or new
    # A lemma that would have its definition's name ends in `_lem`.
    taken = {}
    for old, new in names.items():
        taken.setdefault(new, []).append(old)
    for new, olds in taken.items():
        first = [old for old in olds if re.search(r"[A-Z]", old)] or [old for old in olds if old == new]
        for old in olds if len(olds) > 1 else []:
            if old not in first and old in lemmas:
                names[old] = new + "_lem"
    return {old: new for old, new in names.items() if old != new}


def together(names):
    """Names that would fall together: two old names with one new one, or a new name that a file with the old one has already."""
    said = []
    back = {}
    for old, new in names.items():
        back.setdefault(new, []).append(old)
    said += [f"{new}: {', '.join(olds)}" for new, olds in back.items() if len(olds) > 1]
    for path in proof_files():
        words = set(WORD.findall(COMMENT.sub("", read(path))))
        for old in words & set(names):
            if names[old] in words:
                said.append(f"{path}: {old} -> {names[old]}, which stands there")
    return said


def turn(text, names, bare):
    """The text with each whole word of the table turned; where bare is false, only in code spans."""
    whole = re.compile(r"(\.?)(?<![A-Za-z0-9_'′₀-₉-])([a-z][A-Za-z0-9_'′₀-₉-]*)")

    def word(it):
        # A name that is in snake case already may be a function's of the source, too: behind a dot it stays.
        dot, name = it.groups()
        return dot + name if dot and re.fullmatch(r"[a-z0-9_]+", name) else dot + names.get(name, name)

    if bare:
        return whole.sub(word, text)
    return re.sub(r"`[^`\n]+`", lambda span: whole.sub(word, span.group(0)), text)


def turn_code(text, names, comment):
    """Code with comments: comments turn camel case, and names with a dash in code spans alone."""
    out = []
    end = 0
    camel = {old: new for old, new in names.items() if re.search(r"[A-Z]", old)}
    for it in comment.finditer(text):
        out.append(turn(text[end : it.start()], names, True))
        out.append(turn(turn(it.group(0), camel, True), names, False))
        end = it.end()
    out.append(turn(text[end:], names, True))
    return "".join(out)


def turn_rust(text, names):
    """Rust's text: clauses, `ghost` items and comments. Elsewhere a dash is a minus, so there only camel case turns."""
    camel = {old: new for old, new in names.items() if re.search(r"[A-Z]", old)}
    out = []
    end = 0
    ghost = re.compile(r"//[^\n]*|ghost use [^;]*;|(?:requires|ensures)(?: \w+)? \{(?:[^{}]|\{[^{}]*\})*\}|\"(?:[^\"\\\n]|\\.)*\"")
    for it in ghost.finditer(text):
        out.append(turn(text[end : it.start()], camel, True))
        piece = it.group(0)
        if piece.startswith('"'):
            out.append(piece)
        elif piece.startswith("//"):
            out.append(turn(turn(piece, camel, True), names, False))
        else:
            out.append(turn(piece, names, True))
        end = it.end()
    out.append(turn(text[end:], camel, True))
    return "".join(out)


def main():
    names = table()
    if "--check" in sys.argv:
        for old, new in sorted(names.items()):
            print(old, new)
        print("\n".join(together(names)), file=sys.stderr)
        return
    for path in proof_files():
        crate = path.split("/")[1]
        change(path, turn_code(read(path), {o: n for o, n in names.items() if (crate, o) not in FIELDS}, COMMENT))
    names = {old: new for old, new in names.items() if re.search(r"[A-Z-]", old)}
    for path in glob.glob("crates/*/src/**/*.rt", recursive=True):
        change(path, turn_rust(read(path), names))
    for path in glob.glob("crates/*/must-fail/*.edit"):
        text = read(path)
        if re.search(r"^file: src/", text, re.M):
            change(path, turn_edit(text, names))
        else:
            change(path, turn_code(text, names, re.compile(r"^#[^\n]*", re.M)))
    for path in [p for p in glob.glob("**/*.md", recursive=True) if not p.startswith(("crates/", "docs/PORT"))]:
        change(path, turn(read(path), names, False))


def turn_edit(text, names):
    """An edit of src/: clauses and imports on its lines, and else camel case alone."""
    camel = {old: new for old, new in names.items() if re.search(r"[A-Z]", old)}
    lines = []
    for line in text.split("\n"):
        ghost = re.search(r"requires|ensures|ghost|⌜|≡", line)
        lines.append(turn(line, names if ghost else camel, True))
    return "\n".join(lines)


def change(path, text):
    if text != read(path):
        with open(path, "w", encoding="utf-8") as file:
            file.write(text)


if __name__ == "__main__":
    main()
