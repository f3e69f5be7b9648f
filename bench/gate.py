#!/usr/bin/env python3
"""Where the gate's time goes: `bench/gate.py [WORDS OF rt ci ..]`, as `bench/gate.py --anew` for a run from nothing.

It runs `rt ci` with these words at the top of the repository, and samples once a second the processor time of each
process of the prover that the run started. Then it prints a table: a line a crate, with the seconds of processor time of
its proof, of the proof of its tests, of its must-fail edits (the check before them included), and of its builds, the
longest first; and the run's last lines and wall time. What lives for less than a second isn't seen. The output of the
run goes to the file that `--log` names."""

import argparse
import collections
import os
import subprocess
import time

TOP = os.path.dirname(os.path.dirname(os.path.abspath(__file__)))
TICK = os.sysconf("SC_CLK_TCK")
KINDS = ["proof", "tests", "edits", "builds"]


def stat(pid):
    """The parent and the seconds of processor time of a process, its waited-for children left out."""
    with open(f"/proc/{pid}/stat", encoding="ascii", errors="replace") as file:
        fields = file.read().rsplit(")", 1)[1].split()
    return int(fields[1]), (int(fields[11]) + int(fields[12])) / TICK


def children(root):
    """The processes below one, as a list of numbers with their seconds."""
    below = collections.defaultdict(list)
    seconds = {}
    for name in os.listdir("/proc"):
        if not name.isdigit():
            continue
        try:
            parent, spent = stat(name)
        except (OSError, IndexError):
            continue
        below[parent].append(int(name))
        seconds[int(name)] = spent
    found, left = [], [root]
    while left:
        for child in below[left.pop()]:
            found.append((child, seconds[child]))
            left.append(child)
    return found


def what(pid):
    """The crate and the kind of work of a process of the prover, or nothing."""
    try:
        with open(f"/proc/{pid}/cmdline", encoding="utf-8", errors="replace") as file:
            words = file.read().split("\0")
        folder = os.readlink(f"/proc/{pid}/cwd")
    except OSError:
        return None
    if os.path.basename(words[0]) not in ("rattle", "clang", "rattle-link") or "--crate-name" not in words:
        return None
    crate = words[words.index("--crate-name") + 1]
    if "/rt-edit" in folder or any("/rt-edits" in word for word in words):
        return crate, "edits"
    if "--test" in words:
        return crate, "tests"
    return crate, "builds" if "--crate-checked" in words or "--backend" in words else "proof"


def run(words, log):
    """Runs the gate, and answers the seconds by process and what each process did."""
    spent, works = {}, {}
    with open(log, "w", encoding="utf-8") as out:
        gate = subprocess.Popen(["rt", "ci", *words], cwd=TOP, stdout=out, stderr=subprocess.STDOUT)
        while gate.poll() is None:
            for pid, seconds in children(gate.pid):
                if pid not in works:
                    works[pid] = what(pid)
                if works[pid]:
                    spent[pid] = seconds
            time.sleep(1)
    return gate.returncode, spent, works


def show(spent, works):
    table = collections.defaultdict(lambda: collections.Counter())
    for pid, seconds in spent.items():
        crate, kind = works[pid]
        table[crate][kind] += seconds
    print(f"| Crate | {' | '.join(KINDS)} | all |\n|---|---|---|---|---|---|")
    total = collections.Counter()
    for crate, row in sorted(table.items(), key=lambda item: -sum(item[1].values())):
        total.update(row)
        print(f"| {crate} | {' | '.join(f'{row[kind]:.0f}' for kind in KINDS)} | {sum(row.values()):.0f} |")
    print(f"| all | {' | '.join(f'{total[kind]:.0f}' for kind in KINDS)} | {sum(total.values()):.0f} |")


def main():
    parser = argparse.ArgumentParser(description=__doc__, formatter_class=argparse.RawDescriptionHelpFormatter)
    parser.add_argument("--log", default="/tmp/gate.log")
    words, rest = parser.parse_known_args()
    begin = time.time()
    status, spent, works = run(rest, words.log)
    show(spent, works)
    with open(words.log, encoding="utf-8") as file:
        print("\n".join(line.rstrip() for line in file.readlines()[-2:]))
    print(f"status {status}, {(time.time() - begin) / 60:.1f} minutes")


if __name__ == "__main__":
    main()
