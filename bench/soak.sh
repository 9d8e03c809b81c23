#!/usr/bin/env bash
# Runs the program on made-up worlds and scripts of eight kinds, each with several numbers of workers, and judges each report by the
# program's own `check` and, where the last state does not depend on the order of the ticks, by the other reports of the same script.
# With REPLAY=1 a replay of the events that shares nothing with the program judges each report too.
#
#     bench/soak.sh [WORKERS [ROUNDS [SEED]]]      bench/soak.sh 1,2,4,8,64 100 1
#     PROGRAM=path/to/another bench/soak.sh ..     another program that takes the same words
#     MINUTES=60 bench/soak.sh 1,8,64 100000       no round begins after so many minutes
#
# Each run may take LIMIT seconds, 60 if that is not set. What fails is kept in soak-failures, and the status is 1.
set -euo pipefail
here=$(cd "$(dirname "${BASH_SOURCE[0]}")" && pwd)
root=$(dirname "$here")
program=${PROGRAM:-}
if [ -z "$program" ]; then
    # With no words the program says that they are no command; this builds it where it is missing or old.
    "$root/fol" >/dev/null 2>&1 || true
    program="$root/crates/fol_main/out/fol_main"
fi
exec python3 -B "$here/soak.py" "$program" --workers "${1:-1}" --rounds "${2:-10}" --seed "${3:-1}" --limit "${LIMIT:-60}" ${MINUTES:+--minutes "$MINUTES"} ${REPLAY:+--replay}
