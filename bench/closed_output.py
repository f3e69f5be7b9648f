#!/usr/bin/env python3
"""How each command ends where its line can't be printed: `bench/closed_output.py`.

Runs `./flipcentre` with standard output closed, full (`/dev/full`), and a pipe that nobody reads. Each run has to end with
status 6, and `solve` has to leave both files whole. It prints what each run ends with, and ends with status 1 where one
ends otherwise."""

import json
import os
import subprocess
import tempfile

from solving import PROGRAM

SQUARE = {
    "instance_uid": "Q",
    "points_x": [0, 2, 2, 0],
    "points_y": [0, 0, 2, 2],
    "triangulations": [[[0, 2]], [[1, 3]]],
}

COMMANDS = [
    "solve i.json s.json c.txt --workers 0",
    "check i.json",
    "score i.json s.json",
    "verify i.json s.json c.txt",
    "trace i.json 1",
    "bench 7 10 2",
    "no command",
]

WRITE_FAULT = 6


def closed(folder, words):
    return subprocess.run(["sh", "-c", 'exec "$@" >&-', "", PROGRAM, *words], cwd=folder, check=False).returncode


def full(folder, words):
    with open("/dev/full", "wb") as file:
        return subprocess.run([PROGRAM, *words], cwd=folder, stdout=file, check=False).returncode


def unread(folder, words):
    reader, writer = os.pipe()
    os.close(reader)
    try:
        return subprocess.run([PROGRAM, *words], cwd=folder, stdout=writer, check=False).returncode
    finally:
        os.close(writer)


def main():
    # The first call builds the program where that hasn't been done.
    subprocess.run([PROGRAM], stdout=subprocess.DEVNULL, check=False)
    ends = set()
    with tempfile.TemporaryDirectory() as folder:
        with open(os.path.join(folder, "i.json"), "w", encoding="utf-8") as file:
            json.dump(SQUARE, file)
        for output in (closed, full, unread):
            for command in COMMANDS:
                status = output(folder, command.split())
                ends.add(status)
                print(f"{output.__name__}: {command}: {status}", flush=True)
            # It says yes only where `solve` left both files whole.
            verdict = subprocess.run([PROGRAM, "verify", "i.json", "s.json", "c.txt"], cwd=folder, capture_output=True, check=False)
            print(f"{output.__name__}: verify then: {verdict.stdout.decode().strip()}", flush=True)
            ends.add(WRITE_FAULT if verdict.returncode == 0 else verdict.returncode)
            os.remove(os.path.join(folder, "s.json"))
            os.remove(os.path.join(folder, "c.txt"))
    raise SystemExit(0 if ends == {WRITE_FAULT} else 1)


if __name__ == "__main__":
    main()
