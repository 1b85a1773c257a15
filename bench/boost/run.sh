#!/usr/bin/env bash
# Holds the library against Boost.Graph's r_c_shortest_paths on a thousand small trips and on practice maps, and prints
# a table of times in markdown. Needs rt, cargo, a C++ compiler and Boost.Graph, no network. Not part of the gate.
set -eu
cd "$(dirname "$0")/../.."
cxx=${CXX:-c++}
if ! "$cxx" -E -x c++ -include boost/graph/r_c_shortest_paths.hpp /dev/null >/dev/null 2>&1; then
    echo "Boost.Graph is not installed (Debian: libboost-dev, with g++): the comparison with it is left out"
    exit 0
fi
tools/build.sh library >&2
export CARGO_TARGET_DIR="$PWD/target/bench"
cargo build --quiet --release --offline --manifest-path bench/Cargo.toml --bin boost
mkdir -p target/boost
"$cxx" -std=c++17 -O3 -Wall -Wextra -o target/boost/planner bench/boost/planner.cpp
# As in bench/run.sh, and for (c) too: memory that was given back stays with the process.
export MALLOC_MMAP_THRESHOLD_=33554432 MALLOC_TRIM_THRESHOLD_=1073741824
exec target/bench/release/boost target/boost/planner target/boost/trips
