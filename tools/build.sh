#!/usr/bin/env bash
# Proves and builds what the repository gives its users, into target/:
#     tools/build.sh library     target/staticlib/libtrunk.a, the library for C and Rust
#     tools/build.sh program     target/bin/plan, the program that prints a plan
# `rt` leaves both in the out/ of their crates. What was proved before is not proved again. Needs rt alone.
set -euo pipefail
cd "$(dirname "$0")/.."

# put FILE FOLDER: what a check left, where its users look for it.
put() {
    mkdir -p "$2"
    cp -f "$1" "$2"
}

case ${1-} in
library)
    (cd crates/trunk && rt lib)
    put crates/trunk/out/libtrunk.a target/staticlib
    ;;
program)
    # `rt run` builds it and runs it once, in its crate's folder, where it finds no map.
    (cd crates/plan && rt run >/dev/null)
    put crates/plan/out/plan target/bin
    ;;
*)
    echo "usage: tools/build.sh library | program" >&2
    exit 2
    ;;
esac
