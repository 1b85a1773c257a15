#!/usr/bin/env bash
# Proves and builds the static library, builds and runs the C examples, tests the Rust package with the examples of its
# documents and runs its programs: examples/run.sh [--built]. With --built the library is taken as it stands in
# target/staticlib.
# The examples that are there in C and in Rust must print examples/NAME.expected; a map made, planned, kept and audited
# must be map T with its plan; refusals and errors must be told in words. Needs rt, a C compiler and cargo; no network.
set -euo pipefail
cd "$(dirname "$0")/.."
if [ "${1:-}" != --built ]; then tools/build.sh library >&2; fi

in_both="plan_map_t replay_day preview_closure sunday_trip two_junctions"
made=target/examples rust=target/rust/debug/examples order=crates/plan/data/order
# The library just built, whatever folder the environment names.
export TRUNK_LIB_DIR="$PWD/target/staticlib" CARGO_TARGET_DIR="$PWD/target/rust"
mkdir -p "$made"

# for_c EXAMPLE PROGRAM [OPTION..]: builds a C example.
for_c() {
    local example=$1 program=$2
    shift 2
    cc -std=c11 -O2 -Wall -Wextra -Iinclude "$@" "examples/$example.c" "$TRUNK_LIB_DIR/libtrunk.a" -o "$program"
}

# told STATUS LINE COMMAND..: the command ends with this status and prints this one line, on standard error.
told() {
    local status=$1 line=$2 ended=0
    shift 2
    "$@" 2>"$made/told" >/dev/null || ended=$?
    printf '%s\n' "$line" | diff "$made/told" -
    if [ "$ended" -ne "$status" ]; then
        echo "status $ended for $status: $*" >&2
        return 1
    fi
}

for standard in c99 c11; do
    echo '#include "trunk.h"' | cc -std=$standard -Wall -Wextra -pedantic -Werror -Iinclude -fsyntax-only -x c -
done
if command -v c++ >/dev/null; then
    echo '#include "trunk.h"' | c++ -std=c++11 -Wall -Wextra -pedantic -Werror -Iinclude -fsyntax-only -x c++ -
fi
for example in $in_both; do
    for_c "$example" "$made/$example"
    "$made/$example" | tee "$made/from_c"
    diff "$made/from_c" "examples/$example.expected"
done
for_c two_junctions "$made/too_early" -DLATEST=44
no_journey="refusal 13, place 1: no legal journey exists; the place is the number of labels"
told 1 "$no_journey" "$made/too_early"
echo "C: as expected"

cargo test --quiet --offline --manifest-path rust/Cargo.toml
cargo build --quiet --offline --manifest-path rust/Cargo.toml --examples
for example in $in_both; do
    "$rust/$example" | tee "$made/from_rust"
    diff "$made/from_rust" "examples/$example.expected"
done
echo "Rust: as expected"

"$rust/make_map" "$made/map"
cmp "$made/map" crates/plan/data/map
{
    "$rust/plan_files" "$made/map" "$order" "$made/sheet"
    "$rust/kept_sheet" audit "$made/map" "$order" "$made/sheet"
    "$rust/kept_sheet" retime "$made/map" "$order" "$made/sheet" "$made/new_sheet"
} | tee "$made/kept"
printf 'planned 4 20700\naudited 3 20700\nretimed 3 20700\n' | diff "$made/kept" -
cmp "$made/sheet" "$made/new_sheet"
echo "Map made, planned, audited and retimed: as expected"

no_file="$made/none: No such file or directory (os error 2)"
bad_order="refusal 9, place 133: the order is not 60 bytes long; the place is its length"
told 1 "$no_file" "$rust/plan_files" "$made/none" "$order" "$made/sheet"
told 1 "$no_file" "$rust/kept_sheet" audit "$made/map" "$order" "$made/none"
told 1 "$made/none/map: No such file or directory (os error 2)" "$rust/make_map" "$made/none/map"
told 1 "$bad_order" "$rust/plan_files" "$made/map" "$made/map" "$made/sheet"
told 1 "$bad_order" "$rust/kept_sheet" retime "$made/map" "$made/map" "$made/sheet" "$made/new_sheet"
told 2 "usage: plan_files MAP ORDER SHEET" "$rust/plan_files"
told 2 "usage: kept_sheet audit MAP ORDER SHEET | retime MAP ORDER SHEET NEW_SHEET" "$rust/kept_sheet" audit
told 2 "usage: make_map FILE" "$rust/make_map"

# Built apart, so that what is built above stays.
if TRUNK_LIB_DIR="$PWD/$made/none" CARGO_TARGET_DIR="$PWD/$made/unlinked" \
    cargo build --quiet --offline --manifest-path rust/Cargo.toml 2>"$made/told"; then
    echo "the Rust package is built without a library" >&2
    exit 1
fi
grep --quiet --fixed-strings "$made/none/libtrunk.a is missing: run \`tools/build.sh library\`" "$made/told"
echo "Errors and refusals: told in words"
