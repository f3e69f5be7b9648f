#!/usr/bin/env python3
"""Prints how long a certificate takes to be read and to be written again, and how much memory.

Usage: bench/certificates/run.py [MEGABYTES..], with 50 where no words are given.
Needs Linux, and `rt` on the path. Works on a copy of the crates outside the checkout, where the program is proved first.

Nearly all of such a text is the lines of logs, with drawn literals and hints, as the search writes them. The draws are the same at each run. What is written must be the bytes that were read. Times are of the processor, so other programs disturb them less; getting the file's bytes isn't counted.
"""
import pathlib
import random
import shutil
import subprocess
import sys
import tempfile
import time

HERE = pathlib.Path(__file__).resolve().parent
ROOT = HERE.parent.parent
NAME = "cert_pace"
INPUTS = 16
CLAUSES = 100_000
VARIABLES = 20_000


def log_lines(draw, count):
    lines = []
    for number in range(CLAUSES + 1, CLAUSES + 1 + count):
        variables = sorted(draw.sample(range(1, VARIABLES), draw.randrange(0, 12)))
        literals = [draw.choice((v, -v)) for v in variables]
        hints = [draw.randrange(1, number) for _ in range(draw.randrange(1, 16))]
        lines.append(" ".join(map(str, [number, *literals, 0, *hints, 0])))
    return lines


def row(draw, i, j, count):
    return [f"row {i} {j} 4", f"refuted 3 {count}", *log_lines(draw, count), "met 4", *["round 0 2 1 4"] * 4]


def text_of(megabytes):
    """A certificate of about so many bytes, with as many log lines in each row."""
    draw = random.Random(megabytes)
    pairs = [(i, j) for i in range(INPUTS) for j in range(i + 1, INPUTS)]
    count = megabytes * 1_000_000 // (92 * len(pairs))
    lines = ["flipcentre-certificate 3", "uid 51", f"inputs {INPUTS} {INPUTS}", "opening 200", "total 150", "bound 128", "journal 1", "move 0 0 2", f"rows {len(pairs)}"]
    for i, j in pairs:
        lines += row(draw, i, j, count)
    lines += [" ".join(["pack", *(str(INPUTS - 1 - i) for i in range(INPUTS))]), "end"]
    return "\n".join(lines) + "\n"


def uses():
    """What the program stands on: the crate of certificates, and all that it stands on."""
    for line in (ROOT / "crates.txt").read_text().splitlines():
        if line.startswith("cert_text:"):
            return f"{line.removeprefix('cert_text:')} cert_text"
    sys.exit("no crate of certificates")


def copy_crates(repository):
    """Copies the crates without what was built, and puts the program beside them."""
    shutil.copytree(ROOT / "crates", repository / "crates", ignore=shutil.ignore_patterns("out"))
    shutil.copy(ROOT / "HANDLES", repository / "HANDLES")
    lines = (ROOT / "crates.txt").read_text()
    (repository / "crates.txt").write_text(f"{lines}{NAME}:{uses()}\n")
    # The gate takes files with the suffixes of sources only in crates, so those of the program lie here with another one.
    target = repository / "crates" / NAME / "src"
    target.mkdir(parents=True)
    for source in (HERE / "src").glob("*.txt"):
        shutil.copy(source, target / f"{source.stem}.rt")
    subprocess.run(["git", "init", "--quiet"], cwd=repository, check=True)


def build(repository):
    """Proves and builds the program, runs it once without a file, and answers where it is."""
    crate = repository / "crates" / NAME
    made = subprocess.run(["rt", "run"], cwd=crate, stdin=subprocess.DEVNULL, capture_output=True, text=True)
    if made.returncode != 0:
        sys.exit(f"the build failed\n{made.stdout[-4000:]}\n{made.stderr[-4000:]}")
    return crate / "out" / NAME


def spent(child):
    """The seconds that a program has taken of the processor once it waits for input, and the megabytes that it took at most."""
    folder = pathlib.Path(f"/proc/{child.pid}")
    while (folder / "stat").read_text().rpartition(")")[2].split()[0] != "S":
        time.sleep(0.001)
    most = next(line for line in (folder / "status").read_text().splitlines() if line.startswith("VmHWM:"))
    return int((folder / "schedstat").read_text().split()[0]) / 1e9, int(most.split()[1]) / 1e3


def measure(program, folder, name):
    """What was spent by the end of each part of the program."""
    parts = {}
    with subprocess.Popen([program, name], cwd=folder, stdin=subprocess.PIPE, stdout=subprocess.PIPE, text=True) as child:
        for line in child.stdout:
            parts[line.strip()] = spent(child)
            child.stdin.write("\n")
            child.stdin.flush()
    if "same" not in parts:
        sys.exit(f"the program said {', '.join(parts)}")
    return parts


def report(text, parts):
    size = len(text) / 1e6
    read = parts["read"][0] - parts["given"][0]
    written = parts["written"][0] - parts["read"][0]
    print(f"{size:.1f} MB in {text.count(chr(10)):,} lines, in processor seconds, and the most memory so far:")
    print(f"  {'given':8} {'':24}  {parts['given'][1]:8,.0f} MB")
    print(f"  {'read':8} {read:6.2f} s, {size / read:7.1f} MB in one  {parts['read'][1]:8,.0f} MB")
    print(f"  {'written':8} {written:6.2f} s, {size / written:7.1f} MB in one  {parts['written'][1]:8,.0f} MB", flush=True)


def main():
    sizes = [int(word) for word in sys.argv[1:]] or [50]
    with tempfile.TemporaryDirectory(prefix="cert-pace-") as folder:
        repository = pathlib.Path(folder)
        copy_crates(repository)
        program = build(repository)
        for size in sizes:
            text = text_of(size)
            (repository / "given").write_text(text)
            report(text, measure(program, repository, "given"))


if __name__ == "__main__":
    main()
