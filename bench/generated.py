#!/usr/bin/env python3
"""The lines of `bench` and their time: `bench/generated.py [SEED POINTS INPUTS ..]`.

It runs `./flipcentre bench` on each triple of numbers, in order, or on the five that are compared from version to
version, and prints the line, the seconds of processor time and the greatest memory in use. Where the line of one of the
five isn't the one that is known, it says so and ends with 1: every program of the same definitions prints the same."""

import os
import resource
import subprocess
import sys

ROOT = os.path.dirname(os.path.dirname(os.path.abspath(__file__)))
PROGRAM = os.path.join(ROOT, "flipcentre")
KNOWN = {
    (7, 3, 1): "opening 0 total 0 bound 0",
    (7, 100, 6): "opening 68 total 55 bound 18",
    (7, 500, 20): "opening 450 total 399 bound 93",
    (7, 2000, 20): "opening 534 total 491 bound 108",
    (7, 16384, 4): "opening 125 total 95 bound 20",
}


def seconds():
    used = resource.getrusage(resource.RUSAGE_CHILDREN)
    return used.ru_utime + used.ru_stime


def run(numbers):
    """Runs one, prints what it came to, and answers whether its line is the known one, if one is known."""
    begin = seconds()
    ran = subprocess.run([PROGRAM, "bench", *map(str, numbers)], capture_output=True, text=True, check=False)
    spent = seconds() - begin
    memory = resource.getrusage(resource.RUSAGE_CHILDREN).ru_maxrss // 1024
    line = ran.stdout.strip()
    known = KNOWN.get(numbers, line)
    told = "" if line == known else f", where `{known}` is known"
    print(f"bench {' '.join(map(str, numbers))}: {line or ran.stderr.strip()}, status {ran.returncode}, {spent:.2f} s, at most {memory} MB so far{told}")
    return line == known


def main():
    words = [int(word) for word in sys.argv[1:]]
    wanted = [tuple(words[i : i + 3]) for i in range(0, len(words), 3)] or list(KNOWN)
    # The first run builds the program, where that isn't done.
    subprocess.run([PROGRAM, "bench", "1", "3", "1"], stdout=subprocess.DEVNULL, check=False)
    sys.exit(0 if all([run(numbers) for numbers in wanted]) else 1)


if __name__ == "__main__":
    main()
