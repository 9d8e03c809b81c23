#!/usr/bin/env bash
# Runs the program on each workload at its size, at twice and at four times that size, and prints the seconds, the greatest memory and
# how both grew, as one table. Memory below some 15 MB is that of the measuring program. A size that ends with another status than 0
# shows it in place of its numbers.
#
#     bench/run_workloads.sh [WORKERS [WORKLOAD ..]]
#     REPEAT=5 bench/run_workloads.sh ..                 the least of so many runs
#     PROGRAM=path/to/another bench/run_workloads.sh ..  another program that takes the same words
#     OTHER=path/to/another bench/run_workloads.sh ..    one more, by turns with the first, and how often its seconds go into those of the first
set -euo pipefail
here=$(cd "$(dirname "${BASH_SOURCE[0]}")" && pwd)
root=$(dirname "$here")
program=${PROGRAM:-}
if [ -z "$program" ]; then
    # With no words the program says that they are no command; this builds it where it is missing or old.
    "$root/fol" >/dev/null 2>&1 || true
    program="$root/crates/fol_main/out/fol_main"
fi
exec python3 - "$here" "$program" "${OTHER:-}" "${REPEAT:-1}" "$@" <<'PYTHON'
import os
import subprocess
import sys
import tempfile
import time
from pathlib import Path

here, program, other, repeat, *words = sys.argv[1:]
sys.path.insert(0, here)
sys.dont_write_bytecode = True
import workloads

workers = words[0] if words else "1"
names = words[1:] or list(workloads.WORKLOADS)
programs = [program, other] if other else [program]


def run(program, folder):
    """The status of a run, its seconds, and its greatest memory in megabytes."""
    start = time.perf_counter()
    with open(os.devnull, "w") as nothing:
        child = subprocess.Popen([program, "run", f"{folder}/world.txt", f"{folder}/script.txt", workers], stdout=nothing, stderr=nothing)
        _, status, usage = os.wait4(child.pid, 0)
    child.returncode = os.waitstatus_to_exitcode(status)
    return child.returncode, time.perf_counter() - start, usage.ru_maxrss / 1024


def measure(folder):
    """Of each program the first status that is not 0, the least seconds and the greatest memory of its runs."""
    runs = [[run(program, folder) for program in programs] for _ in range(int(repeat))]
    return [(max(one[0] for one in of), min(one[1] for one in of), max(one[2] for one in of)) for of in zip(*runs)]


def grown(now, before):
    return f"{now / before:.2f}" if before else "-"


head = f"{'workload':<10} {'size':>8} {'seconds':>9} {'times':>6} {'MB':>8} {'times':>6}"
print(head + (f" {'the other':>10} {'MB':>8} {'ratio':>6}" if other else ""))
for name in names:
    least = workloads.WORKLOADS[name][1]
    seconds_before = memory_before = 0
    for size in (least, 2 * least, 4 * least):
        with tempfile.TemporaryDirectory() as folder:
            # In a process of its own: a child's memory begins with that of its parent.
            subprocess.run([sys.executable, f"{here}/workloads.py", folder, name, str(size)], check=True)
            measured = measure(Path(folder) / name)
        status, seconds, memory = measured[0]
        if any(one[0] for one in measured):
            print(f"{name:<10} {size:>8} status {' '.join(str(one[0]) for one in measured)}")
            continue
        line = f"{name:<10} {size:>8} {seconds:>9.3f} {grown(seconds, seconds_before):>6} {memory:>8.1f} {grown(memory, memory_before):>6}"
        for _, taken, most in measured[1:]:
            line += f" {taken:>10.3f} {most:>8.1f} {seconds / taken:>6.2f}"
        print(line, flush=True)
        seconds_before, memory_before = seconds, memory
PYTHON
