#!/usr/bin/env python3
"""Prints a table of rows: for pairs of random triangulations the lower bound, the number of clauses of the pruned formula of as many rounds, what shows the bound, why it isn't higher, and the time.

Usage: bench/pairs/run.py [BUDGET [POINTS..]], with 50000 for three pairs each of 8, 10, 12, 14, 16, 18, 20, 23, 26 and 30 points where no words are given.
Needs Linux, and `rt` on the path. Works on a copy of the crates outside the checkout, where the program is proved first.

The points are drawn, no three on one line. Both triangulations of a pair come from the greedy one, which takes the shortest segments first, by drawn flips, four for each point. The draws are the same at each run. Times are of the processor, for the whole program: it checks the instance and lists what formulas speak of, and then proves the row.
"""
import itertools
import pathlib
import random
import resource
import shutil
import subprocess
import sys
import tempfile

HERE = pathlib.Path(__file__).resolve().parent
ROOT = HERE.parent.parent
NAME = "pair_table"
USES = "geo_orient edge_table tri_theory crossing_law tri_check side_table flip_mesh log_law formula_law rup_check sat_state sat_search assignment_law bound_law cross_bound formula_parts pruned_cnf flip_cnf pair_rows"
SIZES = [8, 10, 12, 14, 16, 18, 20, 23, 26, 30]
PAIRS = 3
SIDE = 1_000


def turn(points, a, b, c):
    (ax, ay), (bx, by), (cx, cy) = points[a], points[b], points[c]
    return (bx - ax) * (cy - ay) - (by - ay) * (cx - ax)


def draw_points(draw, count):
    points = []
    while len(points) < count:
        points.append((draw.randrange(SIDE), draw.randrange(SIDE)))
        last = len(points) - 1
        if points[last] in points[:last] or any(turn(points, a, b, last) == 0 for a, b in itertools.combinations(range(last), 2)):
            points.pop()
    return points


def cross(points, e, f):
    (a, b), (c, d) = e, f
    return turn(points, a, b, c) * turn(points, a, b, d) < 0 and turn(points, c, d, a) * turn(points, c, d, b) < 0


def greedy(points):
    def length(e):
        (ax, ay), (bx, by) = points[e[0]], points[e[1]]
        return (ax - bx) ** 2 + (ay - by) ** 2, e

    edges = []
    for e in sorted(itertools.combinations(range(len(points)), 2), key=length):
        if not any(cross(points, e, f) for f in edges):
            edges.append(e)
    return edges


def apex(points, edges, a, b):
    """The third corner of the empty triangle left of the way from a to b."""
    def inside(p, c):
        return turn(points, a, b, p) > 0 and turn(points, b, c, p) > 0 and turn(points, c, a, p) > 0

    joined = [{p for e in edges if q in e for p in e} for q in (a, b)]
    corners = [c for c in joined[0] & joined[1] - {a, b} if turn(points, a, b, c) > 0]
    return next((c for c in corners if not any(inside(p, c) for p in range(len(points)))), None)


def flipped(draw, points, edges, calls):
    """A copy of the edges after drawn flips. Draws that don't flip aren't counted."""
    edges = list(edges)
    while calls > 0:
        place = draw.randrange(len(edges))
        a, b = edges[place]
        c, d = apex(points, edges, a, b), apex(points, edges, b, a)
        if c is not None and d is not None and cross(points, (a, b), (c, d)):
            edges[place] = (min(c, d), max(c, d))
            calls -= 1
    return sorted(edges)


def draw_pair(count, number):
    draw = random.Random(1_000 * count + number)
    points = draw_points(draw, count)
    start = greedy(points)
    return points, [flipped(draw, points, start, 4 * count) for _ in range(2)]


def copy_crates(repository):
    """Copies the crates without what was built, and puts the program beside them."""
    shutil.copytree(ROOT / "crates", repository / "crates", ignore=shutil.ignore_patterns("out"))
    shutil.copy(ROOT / "HANDLES", repository / "HANDLES")
    lines = (ROOT / "crates.txt").read_text()
    (repository / "crates.txt").write_text(f"{lines}{NAME}: {USES}\n")
    # The gate takes files with the suffixes of sources only in crates, so those of the program lie here with another one.
    target = repository / "crates" / NAME / "src"
    target.mkdir(parents=True)
    for source in (HERE / "src").glob("*.txt"):
        shutil.copy(source, target / f"{source.stem}.rt")
    subprocess.run(["git", "init", "--quiet"], cwd=repository, check=True)


def build(repository):
    """Proves and builds the program, and answers where it is."""
    crate = repository / "crates" / NAME
    made = subprocess.run(["rt", "run", "--", "0"], cwd=crate, stdin=subprocess.DEVNULL, capture_output=True, text=True)
    if made.returncode != 0:
        sys.exit(f"the build failed\n{made.stdout[-4000:]}\n{made.stderr[-4000:]}")
    return crate / "out" / NAME


def measure(program, budget, points, inputs):
    """What the program says of the pair, with the processor seconds that it takes."""
    numbers = [budget, len(points), *itertools.chain(*points)]
    for edges in inputs:
        numbers += [len(edges), *itertools.chain(*edges)]
    before = resource.getrusage(resource.RUSAGE_CHILDREN)
    said = subprocess.run([program, *map(str, numbers)], stdin=subprocess.DEVNULL, capture_output=True, text=True, check=True)
    after = resource.getrusage(resource.RUSAGE_CHILDREN)
    row = dict(line.split(maxsplit=1) for line in said.stdout.splitlines())
    return row, after.ru_utime + after.ru_stime - before.ru_utime - before.ru_stime


def main():
    numbers = [int(word) for word in sys.argv[1:]]
    budget = numbers[0] if numbers else 50_000
    with tempfile.TemporaryDirectory(prefix="pair-table-") as folder:
        repository = pathlib.Path(folder)
        copy_crates(repository)
        program = build(repository)
        print(f"budget {budget}\npoints  pair  lower  clauses  seconds  evidence; end")
        for count in numbers[1:] or SIZES:
            for number in range(PAIRS):
                row, seconds = measure(program, budget, *draw_pair(count, number))
                print(f"{count:6}  {number:4}  {row['lower']:>5}  {row['clauses']:>7}  {seconds:7.3f}  {row['evidence']}; {row['end']}", flush=True)


if __name__ == "__main__":
    main()
