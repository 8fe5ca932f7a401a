#!/usr/bin/env bash
# Proves what is named and builds it: a program into target/bin/NAME, a static library into target/staticlib/libNAME.a.
# usage: tools/build.sh NAME..
set -euo pipefail
cd "$(dirname "$0")/.."
mkdir -p target/bin target/staticlib
for name in "$@"; do
    crate=crates/$name
    if [ -f "$crate/src/main.rt" ]; then
        # `rt run` builds a program and then runs it, here on no input.
        (cd "$crate" && rt run </dev/null >/dev/null)
        cp "$crate/out/$name" target/bin/
    else
        (cd "$crate" && rt lib)
        cp "$crate/out/lib$name.a" target/staticlib/
    fi
done
