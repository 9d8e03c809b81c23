#!/usr/bin/env python3
"""Runs a program on made-up scripts with several numbers of workers, and judges each report. bench/soak.sh builds the program first.

    bench/soak.py PROGRAM [--workers 1,2,4] [--rounds N] [--minutes N] [--seed N] [--limit SECONDS] [--only KIND,..] [--keep FOLDER] [--replay]

A round makes one world and script of each kind from the seed, which is one more in each round. With --minutes no round begins after that time.
Every five minutes a line on standard error says how far it is. A run fails where it does not end within
the limit, ends with another status than 0, writes a complaint, or writes a report that the program's own `check` does not find legal. With
--replay each report is judged a second time, by the replay of its events in replay.py, which shares nothing with the program. Of the kinds
whose last state does not depend on the order, that state has to be the same for all numbers of workers. What fails is kept in the folder,
with its texts, and the status is 1.
"""

import argparse
import subprocess
import sys
import tempfile
import time
from pathlib import Path

sys.dont_write_bytecode = True
import replay
import soak_scripts

# How many seconds pass between two lines that say how far it is.
TELLS = 300


def output(words, limit):
    """What a command prints; raises Wrong where it fails or does not end."""
    try:
        ran = subprocess.run(words, capture_output=True, timeout=limit)
    except subprocess.TimeoutExpired:
        raise replay.Wrong(f"{words[1]} does not end within {limit:g} seconds") from None
    replay.need(ran.returncode == 0, words[1], "has status", ran.returncode, ran.stderr[:200])
    replay.need(not ran.stderr, words[1], "complains", ran.stderr[:200])
    return ran.stdout.decode("ascii")


def run(program, folder, workers, limit):
    """The report of a run."""
    return output([program, "run", folder / "world.txt", folder / "script.txt", str(workers)], limit)


def check(program, folder, report, limit):
    """Judges a report by the program's own `check`. Gives the number of its events."""
    path = folder / "report.txt"
    path.write_text(report)
    verdict = output([program, "check", folder / "world.txt", folder / "script.txt", path], limit)
    replay.need(verdict == "legal\n", "check says", verdict)
    return int(report.split("\n", 2)[1].split()[1])


class Soak:
    def __init__(self, words):
        self.program, self.limit, self.keep = words.program, words.limit, Path(words.keep)
        self.workers = [int(count) for count in words.workers.split(",")]
        self.replay = words.replay
        self.runs = self.events = self.failed = 0

    def fails(self, folder, name, report, wrong):
        """Keeps the texts and the report, and says what is wrong."""
        self.failed += 1
        kept = self.keep / name
        kept.mkdir(parents=True, exist_ok=True)
        for text in ("world.txt", "script.txt"):
            (kept / text).write_bytes((folder / text).read_bytes())
        (kept / "report.txt").write_text(report)
        print(f"{name}: {wrong}", flush=True)

    def judge(self, folder, kind, seed):
        """Runs one script with each number of workers."""
        soak_scripts.write(folder, kind, seed)
        world, script = ((folder / name).read_text() for name in ("world.txt", "script.txt"))
        states = set()
        for workers in self.workers:
            report = ""
            self.runs += 1
            try:
                report = run(self.program, folder, workers, self.limit)
                self.events += check(self.program, folder, report, self.limit)
                if self.replay:
                    replay.check(world, script, report, workers)
                states.add(replay.last_state(report))
                replay.need(kind in soak_scripts.FREE or len(states) == 1, "another last state than with fewer workers")
            except replay.Wrong as wrong:
                self.fails(folder, f"{kind}-{seed}-{workers}", report, wrong)


def read_words():
    parser = argparse.ArgumentParser(description=__doc__, formatter_class=argparse.RawDescriptionHelpFormatter)
    parser.add_argument("program")
    parser.add_argument("--workers", default="1")
    parser.add_argument("--rounds", type=int, default=10)
    parser.add_argument("--minutes", type=float, default=float("inf"))
    parser.add_argument("--seed", type=int, default=1)
    parser.add_argument("--limit", type=float, default=60)
    parser.add_argument("--only", default=",".join((*soak_scripts.FIXED, *soak_scripts.FREE)))
    parser.add_argument("--keep", default="soak-failures")
    parser.add_argument("--replay", action="store_true")
    return parser.parse_args()


def main():
    words = read_words()
    soak = Soak(words)
    kinds = words.only.split(",")
    taken = dict.fromkeys(kinds, 0.0)
    rounds = 0
    begun = told = time.monotonic()
    with tempfile.TemporaryDirectory() as folder:
        while rounds < words.rounds and time.monotonic() - begun < 60 * words.minutes:
            for kind in kinds:
                start = time.monotonic()
                soak.judge(Path(folder), kind, words.seed + rounds)
                taken[kind] += time.monotonic() - start
            rounds += 1
            if time.monotonic() - told >= TELLS:
                told = time.monotonic()
                print(f"{(told - begun) / 60:.0f} minutes: {rounds} rounds, {soak.runs} runs, {soak.failed} failures", file=sys.stderr, flush=True)
    print(", ".join(f"{kind} {seconds:.1f} s" for kind, seconds in taken.items()))
    print(f"{rounds} rounds of {len(kinds)} kinds, workers {words.workers}: {soak.runs} runs, {soak.events} events, {soak.failed} failures")
    return 1 if soak.failed else 0


if __name__ == "__main__":
    sys.exit(main())
