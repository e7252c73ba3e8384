#!/usr/bin/env python3
"""The crates of the repository, by crates.txt: what each stands on, what stands on it, and its lines.

As a program it prints the lines of crates.txt of a crate and of all below it:   tools/lib/crates.py CRATE
"""
import sys
from pathlib import Path

TOP = Path(__file__).resolve().parent.parent.parent
PARTS = {"src": "*.rt", "specs": "*.antt", "proofs": "*.antt"}


def crates():
    """Each crate in the order of crates.txt, with the crates of the repository that it stands on."""
    lines = [line.split("#")[0].split(":") for line in (TOP / "crates.txt").read_text().splitlines()]
    named = {head.split()[0]: below.split() for head, below in (line for line in lines if len(line) == 2)}
    return {name: [crate for crate in below if crate in named] for name, below in named.items()}


def reached(start, ways):
    """A crate and all that its ways lead to, also by others."""
    found, left = {start}, [start]
    while left:
        more = [crate for crate in ways[left.pop()] if crate not in found]
        found.update(more)
        left += more
    return found


def upwards(named):
    """The crates that stand on each crate."""
    above = {name: [] for name in named}
    for name, below in named.items():
        for crate in below:
            above[crate].append(name)
    return above


def lines_of(name):
    """The lines of a crate's src, specs and proofs, those that are not empty."""
    return {part: sum(1 for path in (TOP / "crates" / name / part).rglob(files)
                      for line in path.read_text(encoding="utf-8").splitlines() if line.strip())
            for part, files in PARTS.items()}


if __name__ == "__main__":
    needed = reached(sys.argv[1], crates())
    for text in (TOP / "crates.txt").read_text().splitlines():
        if text.split("#")[0].split(":")[0].split(" ")[0] in needed:
            print(text)
