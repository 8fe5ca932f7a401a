"""Every public call on the store has a place in demand 3.

Lists the public functions of crate board that take a state, in all files and folders of its src/, and fails where one has no
constructor among the calls of the statement (`Call`) or among the steps of a chain (`Step`), or no line that says that it asks nothing
(`AskNothing`), or where a constructor has no such function. Before that the reader of sources is tried on a small crate of its own.
"""
import os
import re
import sys
import tempfile

BOARD = os.path.join(os.path.dirname(os.path.abspath(__file__)), "..", "..", "crates", "board")

# what has nothing to say here: comments, strings and characters
ASIDE = re.compile(r'//[^\n]*|"(?:\\.|[^"\\])*"|b\'(?:\\.|[^\'\\])\'')
# what tells where a function stands: the start of an impl or of a module, a public function, and braces
MARK = re.compile(r"\bimpl\b(?P<impl>[^{;]*)\{|(?P<pub>pub\s+)?\bmod\s+(?P<mod>\w+)\s*(?P<ends>[;{])"
                  r"|\bpub\s+(?:extern\s+)?fn\s+(?P<fn>\w+)|(?P<brace>[{}])")


def read(path):
    with open(path, encoding="utf-8") as file:
        return file.read()


def files(folder, ending):
    """All files of a folder and of those below it."""
    return sorted(os.path.join(where, name) for where, _, names in os.walk(folder) for name in names if name.endswith(ending))


def words(text):
    return set(re.findall(r"\w+", text))


def parameters(source, at):
    """What stands between the parentheses of a function whose name ends at an index."""
    begin = at = source.index("(", at)
    depth = 0
    while True:
        depth += {"(": 1, ")": -1}.get(source[at], 0)
        at += 1
        if depth == 0:
            return source[begin + 1:at - 1]


class Crate:
    """A crate's sources: its functions, and which of its modules others can name."""

    def __init__(self, folder):
        self.sources = {self.module(folder, path): ASIDE.sub(" ", read(path)) for path in files(folder, ".rt")}
        self.functions = []  # module, type that it is a method of or None, name, parameters
        self.private = set()  # modules
        for module, source in self.sources.items():
            self.scan(module, source)

    @staticmethod
    def module(folder, path):
        """The module of a file as its names from the root: lib.rt is the root, a.rt and a/mod.rt are a, a/b.rt is a, b."""
        parts = os.path.relpath(path, folder)[:-len(".rt")].split(os.sep)
        return tuple(parts[:-1] if parts[-1] in ("lib", "mod") else parts)

    def scan(self, module, source):
        scopes = []  # of each open brace: a module's name, a method's type, or neither
        for mark in MARK.finditer(source):
            here = module + tuple(name for kind, name in scopes if kind == "mod")
            if mark["brace"] == "}":
                scopes.pop()
            elif mark["brace"]:
                scopes.append(("", ""))
            elif mark["mod"]:
                if not mark["pub"]:
                    self.private.add(here + (mark["mod"],))
                if mark["ends"] == "{":
                    scopes.append(("mod", mark["mod"]))
            elif mark["fn"]:
                owner = next((name for kind, name in reversed(scopes) if kind == "impl"), None)
                self.functions.append((here, owner, mark["fn"], parameters(source, mark.end())))
            else:
                scopes.append(("impl", re.findall(r"\w+", mark["impl"])[-1]))

    def holders(self):
        """State, and the types that hold one."""
        types = re.findall(r"\b(?:struct|enum)\s+(\w+)([^;{]*[;{][^}]*)", "\n".join(self.sources.values()))
        found, more = set(), {"State"}
        while more - found:
            found |= more
            more = {name for name, body in types if words(body) & found}
        return found

    def named_by_others(self, module, name):
        """Whether another crate can name a function: all modules on the way are public, or a `pub use` passes it on."""
        if not any(module[:k] in self.private for k in range(1, len(module) + 1)):
            return True
        passed_on = [words(path) | set(re.findall(r"\*", path)) for source in self.sources.values()
                     for path in re.findall(r"\bpub\s+use\s+([^;]*);", source)]
        return any(path & {name, "*"} for path in passed_on)

    def calls(self):
        """The public functions that take a state. A method is public wherever its `impl` stands."""
        holders = self.holders()
        found = set()
        for module, owner, name, params in self.functions:
            taken = words(params) & (holders | ({"self", "Self"} if owner in holders else set()))
            if taken and (owner in holders or self.named_by_others(module, name)):
                found.add(name)
        return found


SAMPLE = {
    "lib.rt": """
        mod inner;
        pub mod open;
        pub use inner::passed_on;
        pub struct State { pub slots: u32 }
        pub struct Reply { pub number: u8, pub state: State }
        impl State {
            pub fn plain(self, x: u32) -> Reply ensures { true } { loop { } }
            fn hidden(self) { }
        }
        // pub fn comment(state: State)
        pub fn fresh(n: u32) -> State { "pub fn text(state: State) {" }
    """,
    "inner.rt": """
        mod deep;
        pub fn passed_on(pair: (u32, u32), state: State) { }
        pub fn kept_in(state: State) { }
        impl Reply { pub fn reply_method(mut self) { } }
    """,
    "inner/deep.rt": """
        impl crate::State {
            pub fn over_lines(
                self,
                f: (u32),
            ) -> u8 { 0 }
        }
        pub fn deep_function(state: State) { }
    """,
    "open/mod.rt": """
        pub fn of_reply(reply: Reply) { }
        mod closed { pub fn closed_function(state: State) { } impl State { pub fn closed_method(&self) { } } }
        impl Other { pub fn other(self) { } }
    """,
}
SAMPLE_CALLS = {"plain", "passed_on", "reply_method", "over_lines", "of_reply", "closed_method"}


def try_sample():
    with tempfile.TemporaryDirectory() as folder:
        for name, text in SAMPLE.items():
            path = os.path.join(folder, name)
            os.makedirs(os.path.dirname(path), exist_ok=True)
            with open(path, "w", encoding="utf-8") as file:
                file.write(text)
        found = Crate(folder).calls()
    if found != SAMPLE_CALLS:
        sys.exit("the small crate has the calls %s, and these were found: %s" % (sorted(SAMPLE_CALLS), sorted(found)))


def constructors(name):
    """The constructors of a data type that stands once among the definitions and proofs of the crate, and its file."""
    found = []
    for path in files(os.path.join(BOARD, "specs"), ".antt") + files(os.path.join(BOARD, "proofs"), ".antt"):
        for body in re.findall(r"^pub data %s\b.*?where\n(.*?)(?:\n\S|\Z)" % name, read(path), re.S | re.M):
            found.append((set(re.findall(r"^  (\w+) :", body, re.M)), os.path.relpath(path, BOARD)))
    if len(found) != 1:
        sys.exit("`pub data %s` stands %d times in crates/board, and should stand once" % (name, len(found)))
    return found[0]


def asks_nothing(name):
    """Whether proofs/Tied.antt says of a method of State that it asks nothing."""
    tied = read(os.path.join(BOARD, "proofs", "Tied.antt"))
    alias = re.search(r"\.proofs\.State\.%s\.Reads as (\w+)-reads\n" % name, tied)
    return bool(alias) and "%s-reads.Asked\n" % alias[1] in tied


def main():
    try_sample()
    wanted = Crate(os.path.join(BOARD, "src")).calls()
    failed = 0
    for data in ("Call", "Step"):
        have, path = constructors(data)
        for name in sorted(wanted - have):
            print("board::%s has no place in %s of %s" % (name, data, path))
        for name in sorted(have - wanted):
            print("%s of %s has %s, and no public call has that name" % (data, path, name))
        failed += len(wanted ^ have)
    for name in sorted(wanted):
        if not asks_nothing(name):
            print("board::%s has no line in AskNothing of proofs/Tied.antt" % name)
            failed += 1
    print("public calls on the store: %s" % ", ".join(sorted(wanted)))
    print("%d passed, %d failed" % (3 * len(wanted) - failed, failed))
    sys.exit(1 if failed or not wanted else 0)


main()
