#!/usr/bin/env python3
"""What workers side by side save of the time of `solve`: `bench/workers.py [--points N] [--inputs M] [--turns T] [--runs R]`.

It writes an instance of N random points with M inputs, the one of `solving.py`, and runs `./flipcentre solve` on it with
0, 1, 2, 4 and 8 workers. It prints the seconds on the clock of the quickest of R runs, and their ratio to that with none.
Each pair of files that is written is verified. Only ratios on one quiet machine mean anything."""

import argparse
import json
import os
import subprocess
import tempfile
import time

from solving import PROGRAM, instance


def seconds(folder, words):
    """What the program prints, and the seconds on the clock that it takes."""
    begin = time.monotonic()
    done = subprocess.run([PROGRAM, *words], cwd=folder, capture_output=True, text=True, check=True)
    return done.stdout.strip(), time.monotonic() - begin


def quickest(folder, workers, turns, runs):
    best, line = None, ""
    for _ in range(runs):
        words = ["solve", "i.json", "s.json", "c.txt", "--workers", str(workers), "--turns", str(turns)]
        line, took = seconds(folder, words)
        yes, _ = seconds(folder, ["verify", "i.json", "s.json", "c.txt"])
        assert yes == f"yes {line}", (yes, line)
        best = took if best is None else min(best, took)
    return line, best


def main():
    words = argparse.ArgumentParser(description=__doc__)
    words.add_argument("--points", type=int, default=64)
    words.add_argument("--inputs", type=int, default=20)
    words.add_argument("--turns", type=int, default=64)
    words.add_argument("--runs", type=int, default=3)
    asked = words.parse_args()
    with tempfile.TemporaryDirectory() as folder:
        with open(os.path.join(folder, "i.json"), "w", encoding="utf-8") as file:
            json.dump(instance(asked.points, asked.inputs), file)
        alone = None
        for workers in (0, 1, 2, 4, 8):
            line, took = quickest(folder, workers, asked.turns, asked.runs)
            alone = took if alone is None else alone
            print(f"workers {workers}: {took:.2f} s, ratio {took / alone:.2f}, {line}", flush=True)


if __name__ == "__main__":
    main()
