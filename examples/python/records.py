#!/usr/bin/env python3
"""Prints the records of both regions of examples/, or of the region and the parameters that are given.

    PYTHONPATH=python python3 examples/python/records.py
    PYTHONPATH=python python3 examples/python/records.py region.bin mem_size=65536 ecc=1
"""

import os
import sys

import oopsbox


def show(path, parameters):
    with open(path, "rb") as file:
        found = oopsbox.records(file.read(), parameters)
    output = sys.stdout.buffer
    output.write(b"records %d\n" % len(found))
    for record in found:
        words = [record.name, str(len(record.content))] + ([record.time] if record.time else [])
        output.write(" ".join(words).encode() + b"\n")
    for record in found:
        output.write(record.content)


def main():
    if len(sys.argv) > 1:
        show(sys.argv[1], " ".join(sys.argv[2:]))
        return
    examples = os.path.join(os.path.dirname(os.path.abspath(__file__)), "..")
    for region in ("oopses", "stock"):
        with open(os.path.join(examples, region, "parameters"), encoding="ascii") as file:
            parameters = file.read().strip()
        show(os.path.join(examples, region, "region.bin"), parameters)


if __name__ == "__main__":
    main()
