#!/usr/bin/env python3
"""What calls leave where memory is refused: `bench/refused_memory.py [CALL ..]`.

The program of `crates/refused_memory` makes a call on an octagon: an offer of each kind of entry, a replica that catches
up, a turn of each kind, `settle`, `finish`, and a whole run of `solve`. For each call it is run once for each allocation
that it makes, with that one refused and no other. Where the call was refused memory, the program compares what is left
with what is promised, makes the call again, and compares what it answers and leaves then with what it does where nothing
is refused: it prints `kept`, and `broken` where anything differs. It prints `unmade` where there was no memory for the
value that the call is made on, and `answered` where the call was answered at once.

For each call it prints how many allocations were refused within the call, each of which left what is promised, and how
many before it. It ends with status 1 where one did not. Allocations are refused by a library that is loaded before that
of C, so it needs `cc` and glibc; the program is built where that hasn't been done, which needs `rt` on the path.
"""

import argparse
import os
import subprocess
import tempfile

ROOT = os.path.dirname(os.path.dirname(os.path.realpath(__file__)))
CRATE = os.path.join(ROOT, "crates", "refused_memory")
PROGRAM = os.path.join(CRATE, "out", "refused_memory")

# Counts calls of malloc, calloc and realloc, and refuses the one with the number in REFUSE, which it says on standard error.
REFUSING = """
#include <stddef.h>
#include <stdlib.h>
#include <unistd.h>

extern void *__libc_malloc(size_t), *__libc_calloc(size_t, size_t), *__libc_realloc(void *, size_t);

static unsigned long made, refused;

static int refuse(void) {
    if (made == 0) {
        const char *number = getenv("REFUSE");
        refused = number ? strtoul(number, 0, 10) : 0;
    }
    if (++made != refused) return 0;
    return write(2, "refused\\n", 8) == 8;
}

void *malloc(size_t size) { return refuse() ? 0 : __libc_malloc(size); }
void *calloc(size_t count, size_t size) { return refuse() ? 0 : __libc_calloc(count, size); }
void *realloc(void *old, size_t size) { return refuse() ? 0 : __libc_realloc(old, size); }
"""


def library(folder):
    source, made = os.path.join(folder, "refusing.c"), os.path.join(folder, "refusing.so")
    with open(source, "w", encoding="utf-8") as file:
        file.write(REFUSING)
    subprocess.run(["cc", "-shared", "-fPIC", "-O1", "-fno-builtin", "-o", made, source], check=True)
    return made


def run(preloaded, call, number):
    """Whether the allocation with this number was refused, and what the program says of the call: nothing where it had no memory for its words."""
    given = {"LD_PRELOAD": preloaded, "REFUSE": str(number)}
    done = subprocess.run([PROGRAM, call], env=given, capture_output=True, text=True, check=False, timeout=60)
    return done.stderr.startswith("refused\n"), done.stdout.removeprefix(call).strip()


def sweep(preloaded, call):
    """How many allocations were refused before the call, within it, and within it although it was answered; and those that left something else."""
    before = kept = answered = 0
    wrong = []
    number = 1
    while True:
        refused, said = run(preloaded, call, number)
        if not refused:
            return before, kept, answered, wrong + ([] if said == "answered" else [(0, said)])
        if said == "kept":
            kept += 1
        elif said == "answered":
            answered += 1
        elif said in ("", "unmade"):
            before += 1
        else:
            wrong.append((number, said))
        number += 1


def main():
    with open(os.path.join(CRATE, "args"), encoding="utf-8") as file:
        calls = file.read().split()
    parser = argparse.ArgumentParser(description=__doc__, formatter_class=argparse.RawDescriptionHelpFormatter)
    parser.add_argument("calls", nargs="*", metavar="CALL", default=calls, help=f"of {', '.join(calls)}")
    words = parser.parse_args()
    if not os.path.exists(PROGRAM):
        subprocess.run(["rt", "run"], cwd=CRATE, stdout=subprocess.DEVNULL, check=True)
    total = 0
    broken = False
    with tempfile.TemporaryDirectory() as folder:
        preloaded = library(folder)
        for call in words.calls:
            before, kept, answered, wrong = sweep(preloaded, call)
            print(f"{call}: {kept} refused in the call, each left what is promised", end="")
            print(f"; {answered} refused and answered all the same" * (answered > 0), end="")
            print(f"; {before} before it", flush=True)
            for number, said in wrong:
                print(f"{call}: with allocation {number} refused: {said}", flush=True)
            total += before + kept + answered + len(wrong)
            broken = broken or bool(wrong)
    print(f"{total} allocations refused, one a run")
    raise SystemExit(1 if broken else 0)


if __name__ == "__main__":
    main()
