#!/usr/bin/env bash
# Times the check of name bytes beside the byte-wise one that the library had before, built from its commit, and beside
# a plain loop in Rust, in one process. Prints a table in markdown.
# Needs rt, cargo, objcopy and the repository's history, no network; some minutes the first time. Not part of the gate.
set -euo pipefail
cd "$(dirname "$0")/.."
commit=f04d5f7
before=$PWD/target/bytewise-$commit
if [ ! -f "$before/libbytewise.a" ]; then
    rm -rf "$before"
    mkdir -p "$before"
    git archive "$commit" | tar -x -C "$before"
    # That commit is in the spelling of an older Rattle, which today's rt does not read.
    if ! (cd "$before" && rt staticlib trunk) >&2; then
        rm -rf "$before"
        echo "$commit does not check with this rt: the comparison needs the kit that docs/TRUST.md names for it" >&2
        exit 1
    fi
    # One name of it is seen, and none that the library of now has too.
    objcopy --redefine-sym trunk_check_map=bytewise_check_map --keep-global-symbol=bytewise_check_map \
        "$before/target/staticlib/libtrunk.a" "$before/libbytewise.a"
fi
tools/build.sh library >&2
# The library just built, whatever folder the environment names.
export TRUNK_LIB_DIR="$PWD/target/staticlib" CARGO_TARGET_DIR="$PWD/target/bench"
cargo rustc --quiet --release --offline --manifest-path bench/Cargo.toml --bin lettering --features bytewise -- -L "native=$before"
exec target/bench/release/lettering
