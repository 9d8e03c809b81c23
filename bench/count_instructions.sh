#!/usr/bin/env bash
# Counts the instructions that programs of the same words take on each workload at its size, with one worker, in millions: numbers
# that do not depend on what else the machine does, and are the same at each run. Needs valgrind.
#
#     bench/count_instructions.sh PROGRAM [PROGRAM ..]
set -euo pipefail
here=$(cd "$(dirname "${BASH_SOURCE[0]}")" && pwd)
[ $# -gt 0 ] || { echo "count_instructions.sh: name the programs, as crates/fol_main/out/fol_main" >&2; exit 2; }
work=$(mktemp -d)
trap 'rm -rf "$work"' EXIT
python3 "$here/workloads.py" "$work"
for folder in "$work"/*/; do
    printf '%-10s' "$(basename "$folder")"
    for program in "$@"; do
        valgrind --tool=callgrind --callgrind-out-file=/dev/null \
            "$program" run "$folder/world.txt" "$folder/script.txt" 1 2>&1 >/dev/null |
            awk '/Collected/ { printf " %9.1f", $4 / 1000000 }'
    done
    echo
done
