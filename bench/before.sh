#!/usr/bin/env bash
# Times planning without bans beside the library that knew none, built from its commit in a clone, on the same trips and
# in one process, turn about. Prints a table in markdown and, over the trips of 500 labels and more, the median and the
# highest ratio.
# Needs rt, cargo, ld, ar, objcopy and the repository's history, no network; some minutes the first time. Not part of the
# gate.
set -euo pipefail
cd "$(dirname "$0")/.."
commit=dbd9127
before=$PWD/target/before-$commit
if [ ! -f "$before/libbefore.a" ]; then
    rm -rf "$before"
    git clone --quiet --no-checkout . "$before/clone"
    git -C "$before/clone" checkout --quiet --detach "$commit"
    "$before/clone/tools/build.sh" library >&2
    # One name of it is seen, and none that the library of now has too.
    ld -r -o "$before/before.o" --whole-archive "$before/clone/target/staticlib/libtrunk.a"
    objcopy --redefine-sym trunk_plan=before_plan --keep-global-symbol=before_plan "$before/before.o"
    ar rcs "$before/libbefore.a" "$before/before.o"
fi
tools/build.sh library >&2
# The library just built, whatever folder the environment names.
export TRUNK_LIB_DIR="$PWD/target/staticlib" CARGO_TARGET_DIR="$PWD/target/bench"
cargo rustc --quiet --release --offline --manifest-path bench/Cargo.toml --bin before --features before -- -L "native=$before"
exec target/bench/release/before
