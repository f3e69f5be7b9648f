#!/usr/bin/env python3
"""Flips in a second, of the shipped program: `bench/flips.py [POINTS ..] [--flips F] [--runs R]`.

For each number of points it writes an instance of points in convex position with one input, the fan at a corner,
and a solution of F rounds of one flip each, which turns the fan into that at the next corner and back, again and again.
The points are numbered in a mixed order, always the same one: in the order of the corners it takes the program time in
the cube of their number to find the hull.
It runs `./flipcentre score` on it, and on the same instance with a solution without flips. The difference is the time
that the flips take, reading them included. With another uid in the solution the program reads both files and
validates the instance, but flips nothing: so what reading takes is known too, and taken off in the second figure.
Of R runs the fastest counts, in seconds
of processor time, which other work on the machine disturbs less than the time that passes. Nothing is checked here but that the program prints the total."""

import argparse
import json
import os
import random
import resource
import subprocess
import tempfile

ROOT = os.path.dirname(os.path.dirname(os.path.abspath(__file__)))
SCRIPT = os.path.join(ROOT, "flipcentre")
PROGRAM = os.path.join(ROOT, "crates", "flipcentre", "out", "flipcentre")


def numbers(count):
    """The number of each corner, the corners in order."""
    mixed = list(range(count))
    random.Random(1).shuffle(mixed)
    return mixed


def instance(count):
    """Points on a parabola, and the fan at the first corner."""
    named = numbers(count)
    xs = [0] * count
    for corner, number in enumerate(named):
        xs[number] = corner - count // 2
    return {
        "content_type": "CGSHOP2026_Instance",
        "instance_uid": f"convex {count}",
        "points_x": xs,
        "points_y": [x * x for x in xs],
        "triangulations": [[[named[0], named[i]] for i in range(2, count - 1)]],
    }


def walk(count, flips):
    """The edges of the flips: from the fan at the first corner to that at the second one, back, and so on."""
    named = numbers(count)
    there = [[named[0], named[i]] for i in range(2, count - 1)]
    back = [[named[1], named[i]] for i in range(count - 1, 2, -1)]
    edges = []
    while len(edges) < flips:
        edges += there
        edges += back
    return edges[:flips]


def solution(count, edges, uid):
    return {
        "content_type": "CGSHOP2026_Solution",
        "instance_uid": uid,
        "flips": [[[edge] for edge in edges]],
        "meta": {},
    }


def write(folder, name, value):
    path = os.path.join(folder, name)
    with open(path, "w", encoding="utf-8") as file:
        json.dump(value, file, separators=(",", ":"))
    return path


def processor_time():
    """Seconds that all ended calls took of the processors."""
    used = resource.getrusage(resource.RUSAGE_CHILDREN)
    return used.ru_utime + used.ru_stime


def seconds(words, line, runs):
    """The least time of some runs that all print this line."""
    least = None
    for _ in range(runs):
        begin = processor_time()
        done = subprocess.run([PROGRAM, *words], capture_output=True, text=True, check=False)
        took = processor_time() - begin
        if done.stdout != line + "\n":
            raise SystemExit(f"{words}: printed {done.stdout!r}, and not {line!r}")
        least = took if least is None else min(least, took)
    return least


def measure(count, flips, runs):
    with tempfile.TemporaryDirectory() as folder:
        points = write(folder, "instance.json", instance(count))
        uid = f"convex {count}"
        edges = walk(count, flips)

        def score(name, edges, uid, line):
            return seconds(["score", points, write(folder, name, solution(count, edges, uid))], line, runs)

        without = score("none.json", [], uid, "total 0")
        having = score("flips.json", edges, uid, f"total {flips}")
        none_read = score("none_read.json", [], "another", "refused solution UidSolution")
        flips_read = score("flips_read.json", edges, "another", "refused solution UidSolution")
    reading = flips_read - none_read
    whole = having - without
    print(f"{count} points, {flips} flips: {having:.2f} s, without flips {without:.2f} s")
    print(f"  {flips / whole:,.0f} flips in a second, with reading them")
    print(f"  {flips / (whole - reading):,.0f} flips in a second, without (reading took {reading:.2f} s)")


def main():
    parser = argparse.ArgumentParser(description=__doc__, formatter_class=argparse.RawDescriptionHelpFormatter)
    parser.add_argument("points", nargs="*", type=int, default=[1000, 10000])
    parser.add_argument("--flips", type=int, default=100000)
    parser.add_argument("--runs", type=int, default=3)
    words = parser.parse_args()
    # The script builds the program where that hasn't been done. Without words the program only refuses them, with status 1.
    if subprocess.run([SCRIPT], stdout=subprocess.DEVNULL, check=False).returncode != 1:
        raise SystemExit("the program wasn't built")
    print(f"load average {os.getloadavg()[0]:.1f} on {os.cpu_count()} processors")
    for count in words.points:
        measure(count, words.flips, words.runs)


if __name__ == "__main__":
    main()
