#!/usr/bin/env python3
"""How long `check` takes beside the reading of its file: `bench/checking.py [POINTSxINPUTS ..]`.

For each size it writes an instance of random points, always the same one, as `solving.py` makes it. It prints the
seconds of processor time that `./flipcentre check` takes on it, and on the same file with one coordinate out of reach,
which is refused once the file is read and its points are counted; so the difference is that of the validation."""

import argparse
import json
import os
import subprocess
import tempfile

from solving import PROGRAM, instance, processor_time


def took(folder, text):
    """Seconds for one run of `check` on a file with this text, and what it prints."""
    with open(os.path.join(folder, "instance.json"), "w", encoding="utf-8") as file:
        file.write(text)
    begin = processor_time()
    done = subprocess.run([PROGRAM, "check", "instance.json"], cwd=folder, capture_output=True, text=True, check=False)
    return processor_time() - begin, done.stdout.strip()


def measure(count, inputs):
    whole = instance(count, inputs)
    far = dict(whole, points_x=[600_000_000] + whole["points_x"][1:])
    with tempfile.TemporaryDirectory() as folder:
        reading, refused = took(folder, json.dumps(far, separators=(",", ":")))
        checking, valid = took(folder, json.dumps(whole, separators=(",", ":")))
    if refused != "refused instance CoordinateRange 0" or valid != f"valid points {count} inputs {inputs}":
        raise SystemExit(f"printed {refused!r} and {valid!r}")
    print(f"{count} points, {inputs} inputs: read in {reading:.3f} s, checked in {checking:.3f} s", flush=True)


def main():
    parser = argparse.ArgumentParser(description=__doc__, formatter_class=argparse.RawDescriptionHelpFormatter)
    parser.add_argument("sizes", nargs="*", default=["500x20", "2000x20", "10000x4", "16384x4"])
    words = parser.parse_args()
    # The first call builds the program where that hasn't been done.
    subprocess.run([PROGRAM], stdout=subprocess.DEVNULL, check=False)
    print(f"load average {os.getloadavg()[0]:.1f} on {os.cpu_count()} processors")
    for size in words.sizes:
        count, inputs = size.split("x")
        measure(int(count), int(inputs))


if __name__ == "__main__":
    main()
