#!/usr/bin/env python3
"""What the shipped program's turns are worth, and what they cost: `bench/solving.py [POINTS ..] [--inputs M] [--turns N]`.

For each number of points it writes an instance of random points, always the same ones, with M inputs. Each input joins
the points in the order of some direction: a point is joined to all that it sees of the hull of those before it.
It runs `./flipcentre solve` on it without turns, which settles the first centre, and with N of them; each run proves the
row of each two inputs as well. It prints both totals, the bound, and the seconds of processor time that each run takes
beyond `check` on the same file. Nothing is checked here but that `verify` says yes to the same total and bound."""

import argparse
import json
import os
import random
import resource
import subprocess
import tempfile

ROOT = os.path.dirname(os.path.dirname(os.path.abspath(__file__)))
PROGRAM = os.path.join(ROOT, "flipcentre")
REACH = 500_000_000


def turn(a, b, c):
    """Positive where c lies left of the way from a to b."""
    return (b[0] - a[0]) * (c[1] - a[1]) - (b[1] - a[1]) * (c[0] - a[0])


def sweep(points, direction):
    """The edges of a triangulation: each point in turn joined to all that it sees of the hull so far."""
    order = sorted(range(len(points)), key=lambda i: direction[0] * points[i][0] + direction[1] * points[i][1])
    first, second = order[0], order[1]
    edges = [(first, second)]
    # The hull counter-clockwise, as a ring.
    after = {first: second, second: first}
    before = {first: second, second: first}
    last = second
    for p in order[2:]:
        left = last
        while turn(points[p], points[left], points[after[left]]) < 0:
            edges.append((p, left))
            left = after[left]
        edges.append((p, left))
        right = last
        while turn(points[p], points[right], points[before[right]]) > 0:
            if right != last:
                edges.append((p, right))
            right = before[right]
        if right != last:
            edges.append((p, right))
        after[right], before[p] = p, right
        after[p], before[left] = left, p
        last = p
    return [list(edge) for edge in sorted({tuple(sorted(edge)) for edge in edges})]


def instance(count, inputs):
    chance = random.Random(count)
    points = [(chance.randint(-REACH, REACH), chance.randint(-REACH, REACH)) for _ in range(count)]
    directions = [(chance.randint(-500, 500), chance.randint(1, 500)) for _ in range(inputs)]
    return {
        "content_type": "CGSHOP2026_Instance",
        "instance_uid": f"random {count}",
        "points_x": [x for x, _ in points],
        "points_y": [y for _, y in points],
        "triangulations": [sweep(points, direction) for direction in directions],
    }


def processor_time():
    """Seconds that all ended calls took of the processors."""
    used = resource.getrusage(resource.RUSAGE_CHILDREN)
    return used.ru_utime + used.ru_stime


def run(folder, words):
    """What the program prints, and the time that it takes."""
    begin = processor_time()
    done = subprocess.run([PROGRAM, *words], cwd=folder, capture_output=True, text=True, check=False)
    took = processor_time() - begin
    if done.returncode != 0:
        raise SystemExit(f"{words}: status {done.returncode}, printed {done.stdout!r}")
    return done.stdout.split(), took


def solve(folder, turns):
    """The total and the bound with so many turns, and the time that it takes."""
    names = ["instance.json", "solution.json", "certificate.txt"]
    line, took = run(folder, ["solve", *names, "--workers", "0", "--turns", str(turns)])
    verdict, _ = run(folder, ["verify", *names])
    if verdict != ["yes", *line]:
        raise SystemExit(f"solve says {line}, and verify says {verdict}")
    return line[1], line[3], took


def measure(count, inputs, turns):
    with tempfile.TemporaryDirectory() as folder:
        with open(os.path.join(folder, "instance.json"), "w", encoding="utf-8") as file:
            json.dump(instance(count, inputs), file, separators=(",", ":"))
        _, checking = run(folder, ["check", "instance.json"])
        before, _, settling = solve(folder, 0)
        after, bound, improving = solve(folder, turns)
    print(f"{count} points, {inputs} inputs: check {checking:.2f} s; without turns total {before} in {settling - checking:.2f} s more, with {turns} turns total {after} in {improving - checking:.2f} s more; bound {bound}", flush=True)


def main():
    parser = argparse.ArgumentParser(description=__doc__, formatter_class=argparse.RawDescriptionHelpFormatter)
    parser.add_argument("points", nargs="*", type=int, default=[30, 100, 300])
    parser.add_argument("--inputs", type=int, default=5)
    parser.add_argument("--turns", type=int, default=64)
    words = parser.parse_args()
    # The first call builds the program where that hasn't been done.
    subprocess.run([PROGRAM], stdout=subprocess.DEVNULL, check=False)
    print(f"load average {os.getloadavg()[0]:.1f} on {os.cpu_count()} processors")
    for count in words.points:
        measure(count, words.inputs, words.turns)


if __name__ == "__main__":
    main()
