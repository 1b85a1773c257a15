#!/usr/bin/env bash
# Every test of the project. Needs the Rattle toolchain (`rt`), python3, a C compiler and cargo; no network.
# The last line is 'N passed, 0 failed' where every step has passed, and names the step that failed otherwise.
set -euo pipefail

usage() {
    cat <<'EOF'
usage: test.sh

Runs every test of the project: proves every crate, tries each wrong program, builds the library and the programs and
holds them against another planner. What a run proved is kept on the machine for the next one. The last line is 'N passed, 0 failed', or names the step that failed.

Needs the Rattle toolchain (rt), python3, a C compiler (cc) and cargo on the path; no network.
EOF
}

case ${1-} in
-h | --help)
    usage
    exit
    ;;
esac
if [ $# -gt 0 ]; then
    echo "test.sh: unknown argument $1; test.sh --help says how it is used" >&2
    exit 2
fi

cd "$(dirname "$0")"
for tool in rt python3 cc cargo; do
    if ! command -v "$tool" >/dev/null; then
        echo "test.sh: $tool is not on the path" >&2
        exit 1
    fi
done

step() {
    doing=$*
    echo "== $doing"
}

end() {
    local status=$?
    rm -f "$said"
    [ "$status" -eq 0 ] || echo "test.sh: FAILED: $doing"
}

said=$(mktemp)
trap end EXIT

step "Version of the prover"
rt version

step "The definitions to believe and the wrong planners of docs/TRUST.md; the table of Easter"
python3 tests/believed.py --check
python3 tests/wrong_planners.py
python3 tests/easter_table.py --check

step "Other planner: build and self-test"
cargo build --quiet --release --offline --manifest-path tests/other/Cargo.toml --target-dir tests/other/target
tests/other/target/release/other self-test | tail -n 1

step "Wrong copies of the other planner, each with the random case that finds it"
tests/other/target/release/other wrong 1 2000

step "Stored worked cases"
python3 tests/worked_cases.py --check

step "Pages for callers: links, worked example, refusals"
python3 tests/pages.py

step "Proofs, wrong programs, and the programs run (the longest step)"
rt ci 2>&1 | tee "$said"
# An edit that cannot be applied fails nothing there, and shows nothing.
if grep -E '^rt: ok' "$said" | grep -qE ', [0-9]+ bad'; then
    echo "test.sh: a wrong program is a bad edit"
    false
fi

step "Library for C and Rust, and the program"
tools/build.sh library
tools/build.sh program

step "Stack of each call of the library"
cc -std=c11 -O2 -Wall -Wextra -pthread -Iinclude tests/stack_use.c target/staticlib/libtrunk.a -o target/stack_use
target/stack_use

step "Examples and the Rust package"
examples/run.sh --built

step "Library beside the other planner"
tests/differential/run.sh --built

step "Program on files"
python3 tests/program_runs.py

step "Verdict of the proofs"
tail -n 1 "$said" | grep -x '[1-9][0-9]* passed, 0 failed'
