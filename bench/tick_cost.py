#!/usr/bin/env python3
"""What a tick of a small idle region costs in a world of one region and in one of 1,000, with one worker, and their ratio.

    bench/tick_cost.py

A tick here is its Begin, its End and all that comes between. Each world runs a script of many ticks and one of one tick for each region; the
difference, divided by the ticks more, is the cost of one tick. Of several runs in turn the fastest counts.
"""

import os
import subprocess
import sys
import tempfile
import time

ROOT = os.path.dirname(os.path.dirname(os.path.abspath(__file__)))
PROGRAM = f"{ROOT}/crates/fol_main/out/fol_main"
RUNS = 20
# regions, and ticks of each
WORLDS = ((1, 10000), (1000, 300))


def script(regions, ticks):
    """A script that loads so many chunks, each far from the others, and ticks their regions so often."""
    loads = [f"load {at % 40 * 8} {at // 40 * 8}\n" for at in range(regions)]
    return "".join(loads) + f"run {ticks}\nend\n"


def seconds(folder, name):
    """How long the program runs this script."""
    begun = time.perf_counter()
    ran = subprocess.run([PROGRAM, "run", f"{folder}/world.txt", f"{folder}/{name}", "1"], stdout=subprocess.DEVNULL)
    if ran.returncode != 0:
        sys.exit(f"the program ended with {ran.returncode}")
    return time.perf_counter() - begun


def main():
    # With no words the program says that they are no command; this builds it where it is missing or old.
    subprocess.run([f"{ROOT}/fol"], stdout=subprocess.DEVNULL, stderr=subprocess.DEVNULL)
    with tempfile.TemporaryDirectory() as folder:
        with open(f"{folder}/world.txt", "w", encoding="ascii") as file:
            file.write("world 1\ngrid 0 1 1 2 1 6\n")
        names = {}
        for regions, ticks in WORLDS:
            for count in (1, ticks):
                name = f"{regions}-{count}.txt"
                with open(f"{folder}/{name}", "w", encoding="ascii") as file:
                    file.write(script(regions, count))
                names[regions, count] = name
        best = {key: float("inf") for key in names}
        for _ in range(RUNS):
            for key, name in names.items():
                best[key] = min(best[key], seconds(folder, name))
    costs = []
    for regions, ticks in WORLDS:
        cost = (best[regions, ticks] - best[regions, 1]) / (regions * (ticks - 1)) * 1e6
        costs.append(cost)
        print(f"regions {regions}: {cost:.2f} microseconds a tick")
    print(f"ratio {costs[1] / costs[0]:.2f}")


if __name__ == "__main__":
    main()
