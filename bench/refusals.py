#!/usr/bin/env python3
"""Public calls that docs/refusals.md doesn't name: `bench/refusals.py`.

A public call is a `pub fn` of a library that can be named from outside: a function that lib.rt holds or takes over
by `pub use`, a method of a type taken over so, or a method that a public trait declares. The page names a call in the
part of its crate (`## CRATE`), as `call` or `Type::call`. Crates of laws and of tests, and programs, are left out.
It ends with status 1 if a call isn't named."""

import glob
import os
import re
import sys

ROOT = os.path.dirname(os.path.dirname(os.path.abspath(__file__)))
PAGE = os.path.join(ROOT, "docs", "refusals.md")
BLOCK = re.compile(r"(?:pub )?(?:impl|trait)\b")
CALL = re.compile(r"( *)(pub )?(?:const )?fn (\w+)")


def read(path):
    with open(path, encoding="utf-8") as file:
        return file.read()


def crates():
    """The libraries with code, in the order of crates.txt."""
    names = re.findall(r"^(\w+):", read(os.path.join(ROOT, "crates.txt")), re.M)
    left_out = re.compile(r".*(_law|_theory|_tests)$")
    held = lambda name: os.path.exists(os.path.join(ROOT, "crates", name, "src", "lib.rt"))
    return [name for name in names if not left_out.match(name) and held(name)]


def exported(lib):
    """The names that lib.rt takes over from its modules."""
    found = set()
    for names in re.findall(r"^pub use \w+(?:::\w+)*::(\{[^}]*\}|\w+);", lib, re.M):
        found.update(re.findall(r"\w+", names))
    return found


def owner_of(line):
    """The type or trait whose block a line opens, and whether the block declares a trait; None within a trait's impl."""
    bare = line
    while "<" in bare:
        shorter = re.sub(r"<[^<>]*>", "", bare)
        if shorter == bare:
            break
        bare = shorter
    words = re.findall(r"\w+", bare)
    if "trait" in words:
        return words[words.index("trait") + 1], "pub" in words
    if "for" in words:
        return None, False
    return words[words.index("impl") + 1], False


def calls(crate):
    """The public calls of a crate, by file: `name` or `Type::name`."""
    source = os.path.join(ROOT, "crates", crate, "src")
    lib = read(os.path.join(source, "lib.rt"))
    seen = exported(lib) | set(re.findall(r"^pub (?:struct|enum|trait) (\w+)", lib, re.M))
    found = []
    for path in sorted(glob.glob(os.path.join(source, "**", "*.rt"), recursive=True)):
        owner, declares = None, False
        for line in read(path).split("\n"):
            if BLOCK.match(line):
                owner, declares = owner_of(line)
            call = CALL.match(line)
            if not call:
                continue
            indent, public, name = call.groups()
            if not indent and public and (name in seen or path.endswith("/lib.rt")):
                found.append((path, name))
            if indent and owner in seen and (public or declares):
                found.append((path, f"{owner}::{name}"))
    return found


def main():
    parts = dict(re.findall(r"^## `(\w+)`\n(.*?)(?=^## |\Z)", read(PAGE), re.M | re.S))
    missing = [(path, call) for crate in crates() for path, call in calls(crate) if f"`{call}`" not in parts.get(crate, "")]
    for path, call in missing:
        print(f"{os.path.relpath(path, ROOT)}: {call}")
    sys.exit(1 if missing else 0)


if __name__ == "__main__":
    main()
