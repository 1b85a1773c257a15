#!/usr/bin/env bash
# Prints the plan of the files `map` and `order` in a folder: ./run.sh [FOLDER]; `./run.sh --help` says more.
# Standard output has the listing alone; what is being proved is told on standard error.
set -euo pipefail
top=$(cd "$(dirname "$0")" && pwd)
program=$top/target/bin/plan

usage() {
    cat <<'EOF'
usage: run.sh [FOLDER]

Prints the plan of the files `map` and `order` in FOLDER, or without FOLDER that of map T, in crates/plan/data.
No road is banned. docs/FORMATS.md describes both files and the lines printed. The program lends 1,600 labels,
and the two files together may have 64 KiB.

The first run proves the program and all that it needs, which takes some minutes, and tells its progress on
standard error; later runs start at once. Needs the Rattle toolchain (rt) on the path, and nothing else.
EOF
}

fail() { # STATUS MESSAGE
    echo "run.sh: $2" >&2
    exit "$1"
}

# How many crates of this repository a crate needs, itself among them.
crates_needed() { # CRATE
    awk -F: -v crate="$1" '
        function take(name, parts, count, i) {
            if (!(name in needs) || name in taken) return
            taken[name] = 1
            total++
            count = split(needs[name], parts, " ")
            for (i = 1; i <= count; i++) take(parts[i])
        }
        /^[^# ]+:/ { needs[$1] = $2 }
        END { take(crate); print total + 0 }
    ' "$top/crates.txt"
}

# Of what rt says, counts the crates that are proved.
tell_progress() { # TOTAL
    local total=$1 proved=0 line
    while IFS= read -r line; do
        [[ $line =~ ^crate\ ([^ ]+):\ modules ]] || continue
        proved=$((proved + 1))
        echo "$proved of $total: ${BASH_REMATCH[1]} checked" >&2
    done
}

case ${1-} in
-h | --help)
    usage
    exit
    ;;
-*) fail 2 "unknown argument $1; run.sh --help says how it is used" ;;
esac
[ $# -le 1 ] || fail 2 "more than one folder; run.sh --help says how it is used"
folder=${1-$top/crates/plan/data}
[ -d "$folder" ] || fail 2 "there is no folder '$folder'"
command -v rt >/dev/null || fail 2 "the Rattle toolchain (rt) is not on the path"

if [ ! -x "$program" ]; then
    echo "Proving and building the program, once; this takes some minutes" >&2
fi
said=$(mktemp)
trap 'rm -f "$said"' EXIT
if ! "$top/tools/build.sh" program 2>&1 | tee "$said" | tell_progress "$(crates_needed plan)"; then
    cat "$said" >&2
    fail 1 "\`tools/build.sh program\` failed"
fi
cd "$folder"
"$program"
