#!/usr/bin/env python3
"""Prints why each machine died, one line an image. The layout is looked for.

    PYTHONPATH=python python3 examples/python/report.py examples/*/region.bin
"""

import json
import sys

import oopsbox


def main():
    for path in sys.argv[1:]:
        with open(path, "rb") as file:
            image = file.read()
        try:
            death = json.loads(oopsbox.report(image).text)["death"]
        except oopsbox.Error as error:
            print("%s: %s" % (path, error))
            continue
        print("%s: %s" % (path, death["line"] if death else "no record tells why"))


if __name__ == "__main__":
    main()
