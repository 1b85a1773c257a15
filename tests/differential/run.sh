#!/usr/bin/env bash
# Proves and builds the library and holds it against the other planner: tests/differential/run.sh [--built] [SEED COUNT]
# With --built the library is taken as it stands in target/staticlib. Needs rt and cargo, no network.
set -eu
cd "$(dirname "$0")/../.."
if [ "${1:-}" = --built ]; then shift; else tools/build.sh library >&2; fi
# The library just built, whatever folder the environment names.
export TRUNK_LIB_DIR="$PWD/target/staticlib" CARGO_TARGET_DIR="$PWD/target/rust"
cargo build --quiet --release --offline --manifest-path tests/differential/Cargo.toml
target/rust/release/differential "$@"
