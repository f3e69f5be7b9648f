#!/usr/bin/env python3
"""Prints how many flips a track takes in a second: appended ones, and pairs of one that is appended and then taken out.

Usage: bench/tracks/run.py [CALLS [POINTS..]], with 100000 calls for 1000 and 10000 points where no words are given.
Needs Linux, and `rt` on the path. Works on a copy of the crates outside the checkout, where the program is proved first.

Each call flips an edge that is drawn among the diagonals of points in convex position. That the edge flips, as a track requires, is known by a mesh that is flipped beside the track. So the time of the same flips of a mesh alone is taken off. Times are of the processor, so other programs disturb them less. Checking 10000 points takes some 15 seconds, which are not counted.
"""
import pathlib
import shutil
import subprocess
import sys
import tempfile
import time

HERE = pathlib.Path(__file__).resolve().parent
ROOT = HERE.parent.parent
NAME = "track_pace"
USES = "geo_orient edge_table tri_theory tri_check side_table flip_mesh flip_list_law round_pack"
# The gate takes files with the suffixes of sources only in crates, so those of the program lie here with another one.
SUFFIXES = {"src": ".rt", "proofs": ".antt"}


def copy_crates(repository):
    """Copies the crates without what was built, and puts the program beside them."""
    shutil.copytree(ROOT / "crates", repository / "crates", ignore=shutil.ignore_patterns("out"))
    shutil.copy(ROOT / "HANDLES", repository / "HANDLES")
    lines = (ROOT / "crates.txt").read_text()
    (repository / "crates.txt").write_text(f"{lines}{NAME}: {USES}\n")
    for folder, suffix in SUFFIXES.items():
        for source in (HERE / folder).rglob("*.txt"):
            target = repository / "crates" / NAME / source.relative_to(HERE).with_suffix(suffix)
            target.parent.mkdir(parents=True, exist_ok=True)
            shutil.copy(source, target)
    subprocess.run(["git", "init", "--quiet"], cwd=repository, check=True)


def build(repository):
    """Proves and builds the program, runs it once without calls, and answers where it is."""
    crate = repository / "crates" / NAME
    made = subprocess.run(["rt", "run", "--", "3", "0"], cwd=crate, stdin=subprocess.DEVNULL, capture_output=True, text=True)
    if made.returncode != 0:
        sys.exit(f"the build failed\n{made.stdout[-4000:]}\n{made.stderr[-4000:]}")
    return crate / "out" / NAME


def processor_seconds(child):
    """What a program has taken of the processor once it waits for input."""
    folder = pathlib.Path(f"/proc/{child.pid}")
    while (folder / "stat").read_text().rpartition(")")[2].split()[0] != "S":
        time.sleep(0.001)
    return int((folder / "schedstat").read_text().split()[0]) / 1e9


def measure(program, points, calls):
    """The processor seconds of each part of the program, in each of which all calls must have flipped."""
    seconds = {}
    before = 0.0
    with subprocess.Popen([program, str(points), str(calls)], stdin=subprocess.PIPE, stdout=subprocess.PIPE, text=True) as child:
        for line in child.stdout:
            part, done = line.rsplit(maxsplit=1)
            now = processor_seconds(child)
            if part != "ready":
                if int(done) != calls:
                    sys.exit(f"{part}: {done} of {calls} calls did flip")
                seconds[part] = now - before
            before = now
            child.stdin.write("\n")
            child.stdin.flush()
    return seconds


def report(points, calls, seconds):
    """Prints the calls in a second, without what the mesh beside the track takes."""
    mesh = seconds["mesh"]
    rates = {
        "pairs on the empty track": calls / (seconds["early"] - 2 * mesh),
        "appends": calls / (seconds["append"] - mesh),
        "pairs after those": calls / (seconds["late"] - 2 * mesh),
        "flips of a mesh alone": calls / mesh,
    }
    print(f"{points} points, {calls} calls, in a processor second:")
    for kind, rate in rates.items():
        print(f"  {rate:12,.0f} {kind}")


def main():
    numbers = [int(word) for word in sys.argv[1:]]
    calls = numbers[0] if numbers else 100_000
    with tempfile.TemporaryDirectory(prefix="track-pace-") as folder:
        repository = pathlib.Path(folder)
        copy_crates(repository)
        program = build(repository)
        for points in numbers[1:] or [1_000, 10_000]:
            report(points, calls, measure(program, points, calls))


if __name__ == "__main__":
    main()
