"""Reports on the crash logs of many machines, with Dask as the engine.

A bag of images becomes a bag of rows, one of each image. Each row is made where a worker reads the image:

    >>> import dask.bag, glob, oopsbox_fleet
    >>> images = dask.bag.from_sequence(glob.glob("images/*"), partition_size=1000)
    >>> rows = oopsbox_fleet.rows(images, "mem_size=16384 ftrace_size=0 ecc=1")
    >>> for count, signature in oopsbox_fleet.deaths(rows):
    ...     print(count, signature)

An image that cannot be reported is a row with its fault, and the others go on. If a worker dies, the engine has its
part of the bag reported again by another one. A row is made of the image alone, so the rows are the same.

As a program it reads paths, one a line, and prints each row as a line of JSON:

    ls images/* | python3 -m oopsbox_fleet --scheduler tcp://10.0.0.1:8786 > rows

The module wants Debian's python3-distributed, and each worker wants this module and `oopsbox`.
"""

import argparse
import json
import os
import sys
from collections import Counter, namedtuple

from oopsbox import report

__all__ = ["Death", "Row", "deaths", "row", "rows"]

#: What one image tells. `path` is its name. `died` is the line that tells why the machine died, `signature` what went
#: wrong and in which function, without addresses and numbers, so that machines that die alike have the same one.
#: `reason` is why the kernel made that record ("Panic", "Oops", ..), and `time` when, in seconds since 1970. `functions` has the function that the
#: record names, and then those of its call trace, the innermost first. `zones_bad` counts the zones with parts that
#: parity could not correct, and `corrected` the bytes that it did. What the image does not tell is None. `fault` is
#: None, or why the image was not reported.
Row = namedtuple("Row", "path died signature reason time functions zones_bad corrected fault")
Death = namedtuple("Death", "count signature")

NOT_TOLD, NOT_REPORTED = "(no record tells why)", "(not reported)"
_MOST = 1 << 27


def _reason(text):
    # a dump begins with a line such as "Panic#1 Part1"
    word, mark, _ = (text or "").partition("#")
    return word if mark and word.isalpha() else None


def _functions(death):
    place = death["function"]
    return ([place.partition("+")[0]] if place else []) + (death["trace"] or [])


def _told(path, line):
    bad = sum(zone["bad"] > 0 for zone in line["zones"])
    corrected = sum(zone["corrected"] for zone in line["zones"])
    death = line["death"]
    if death is None:
        return Row(path, None, None, None, None, [], bad, corrected, None)
    record = next(record for record in line["records"] if record["name"] == death["record"])
    time = record["time"] and record["time"]["seconds"] + record["time"]["microseconds"] / 1e6
    return Row(path, death["line"], line["signature"], _reason(record["text"]), time, _functions(death), bad, corrected,
               None)


def row(image, words=""):
    """The row of an image: a path, its bytes, or both as (path, bytes). It raises nothing.

    Words are parameters, as oopsbox.report has them. It reads the first 128 MiB of a file: no storage is longer.
    """
    path, content = image if isinstance(image, tuple) else (image, None)
    if content is None and not isinstance(path, (str, os.PathLike)):
        path, content = "", image
    path = os.fspath(path)
    try:
        if content is None:
            with open(path, "rb") as file:
                content = file.read(_MOST)
        return _told(path, json.loads(report(content, words).text))
    except Exception as fault:  # whatever one image has, the others go on
        return Row(path, None, None, None, None, [], None, None, "%s: %s" % (type(fault).__name__, fault))


def rows(images, words=""):
    """The rows of a bag of images, as a bag in the same order. Nothing is read before it is computed."""
    return images.map(row, words)


def _signature(told):
    return NOT_REPORTED if told.fault else told.signature or NOT_TOLD


def deaths(told):
    """How many died of what, by signature, the most frequent first, of a bag of rows or of any rows in memory."""
    if hasattr(told, "frequencies"):
        counts = dict(told.map(_signature).frequencies().compute())
    else:
        counts = Counter(map(_signature, told))
    return sorted((Death(count, signature) for signature, count in counts.items()),
                  key=lambda death: (-death.count, death.signature))


def main(arguments):
    """Reads paths and prints rows, or deaths. The exit status is 0, also if images were not reported."""
    parser = argparse.ArgumentParser(prog="oopsbox_fleet", description="reports the images whose paths it reads")
    parser.add_argument("--scheduler", help="address of a Dask scheduler; without it this machine's processors work")
    parser.add_argument("--words", default="", help="parameters, as 'mem_size=16384 ecc=1'; by default they are found")
    parser.add_argument("--deaths", action="store_true", help="print how many died of what, in place of the rows")
    options = parser.parse_args(arguments)
    import dask.bag
    if options.scheduler:
        from distributed import Client
        Client(options.scheduler)
    paths = [os.fsdecode(path) for path in sys.stdin.buffer.read().split(b"\n") if path]
    told = rows(dask.bag.from_sequence(paths), options.words) if paths else []
    if options.deaths:
        for count, signature in deaths(told):
            print(count, signature, sep="\t")
    else:
        for one in told:
            print(json.dumps(one._asdict()))
    return 0


if __name__ == "__main__":
    # by the module's name, under which each worker has it
    import oopsbox_fleet
    sys.exit(oopsbox_fleet.main(sys.argv[1:]))
