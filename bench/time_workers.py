#!/usr/bin/env python3
"""Times the program with several numbers of workers in one run, and prints how the times go together.

    bench/time_workers.py [--workers 1,2,4,64] [--repeat 5] [--only WORKLOAD,..]
    PROGRAM=path/to/another bench/time_workers.py ..     another program that takes the same words

The numbers of workers take turns. Of each the least and the middle time are shown, and how often the least one goes into the least one of
the first number of workers. The workloads are those of workloads.py whose regions are many, at sizes at which one worker takes some tenths
of a second.
"""

import argparse
import os
import statistics
import subprocess
import sys
import tempfile
import time

sys.dont_write_bytecode = True
import workloads

ROOT = os.path.dirname(os.path.dirname(os.path.abspath(__file__)))
PROGRAM = f"{ROOT}/crates/fol_main/out/fol_main"
# The size of each workload.
SIZES = {"idle": 1_800, "crowds": 200, "posts": 240_000, "chains": 10_000, "churn": 100}


def seconds(program, folder, workers):
    """How long a run takes."""
    words = [program, "run", f"{folder}/world.txt", f"{folder}/script.txt", str(workers)]
    begun = time.perf_counter()
    ran = subprocess.run(words, stdout=subprocess.DEVNULL)
    taken = time.perf_counter() - begun
    if ran.returncode != 0:
        sys.exit(f"{' '.join(words)} ended with {ran.returncode}")
    return taken


def measure(program, folder, name, counts, repeat):
    """Prints a line for each number of workers."""
    times = {workers: [] for workers in counts}
    for _ in range(repeat):
        for workers in counts:
            times[workers].append(seconds(program, f"{folder}/{name}", workers))
    for workers, taken in times.items():
        ratio = min(times[counts[0]]) / min(taken)
        print(f"{name:<10} {workers:>7} {min(taken):>9.3f} {statistics.median(taken):>9.3f} {ratio:>6.2f}", flush=True)


def main():
    parser = argparse.ArgumentParser(description=__doc__, formatter_class=argparse.RawDescriptionHelpFormatter)
    parser.add_argument("--workers", default="1,2,4,64")
    parser.add_argument("--repeat", type=int, default=5)
    parser.add_argument("--only", default=",".join(SIZES))
    words = parser.parse_args()
    program = os.environ.get("PROGRAM")
    if not program:
        # With no words the program says that they are no command; this builds it where it is missing or old.
        subprocess.run([f"{ROOT}/fol"], stdout=subprocess.DEVNULL, stderr=subprocess.DEVNULL)
        program = PROGRAM
    counts = [int(count) for count in words.workers.split(",")]
    print(f"{os.cpu_count()} processors, load {os.getloadavg()[0]:.1f}")
    print(f"{'workload':<10} {'workers':>7} {'least':>9} {'middle':>9} {'times':>6}")
    with tempfile.TemporaryDirectory() as folder:
        for name in words.only.split(","):
            workloads.write(folder, name, SIZES[name])
            measure(program, folder, name, counts, words.repeat)


if __name__ == "__main__":
    main()
