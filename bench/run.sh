#!/usr/bin/env bash
# Proves and builds the library, then times it against planners written in Rust and prints tables in markdown.
# With --quick: a small part. Needs rt and cargo, no network. Not part of the gate.
set -eu
cd "$(dirname "$0")/.."
tools/build.sh library >&2
# The library just built, whatever folder the environment names.
export TRUNK_LIB_DIR="$PWD/target/staticlib" CARGO_TARGET_DIR="$PWD/target/bench"
cargo build --quiet --release --offline --manifest-path bench/Cargo.toml
# Memory that a planner gave back stays with the process, so that no time has the taking of it from the system in it.
export MALLOC_MMAP_THRESHOLD_=33554432 MALLOC_TRIM_THRESHOLD_=1073741824
exec target/bench/release/bench "$@"
