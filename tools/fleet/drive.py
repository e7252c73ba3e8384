"""Reports the fleet of tools/fleet/images.py for tools/fleet-check, and prints what it took.

tools/fleet/drive.py one FOLDER ROWS                  in this process alone, without an engine
tools/fleet/drive.py dask SCHEDULER COUNT FOLDER ROWS [PID]
                      by the first COUNT workers, where each worker reads FOLDER; with PID, the process is killed once a
                      third of the files are reported
tools/fleet/drive.py sent SCHEDULER COUNT FOLDER ROWS
                      the same with the images sent to the workers from here
tools/fleet/drive.py days ROWS ANSWER
                      compares the deaths of each day, as a database answers them, with those of the rows
tools/fleet/drive.py alike ROWS
                      fails unless the oopses at different addresses have one signature
tools/fleet/drive.py files FOLDER TO
                      makes a file of each image of the first thousand, and prints their paths, and one that is missing
tools/fleet/drive.py paths ONE ROWS
                      compares the rows of these paths with the first of all

ROWS gets the rows as lines of JSON, and ROWS.deaths the table of them.
"""
import datetime
import glob
import json
import os
import signal
import sys
import time
from collections import Counter

import oopsbox_fleet
from images import IN_A_FILE, PAGING, WORDS, read_file

WAIT = 120


def write(path, rows, deaths):
    """The rows and their table."""
    with open(path, "w", encoding="utf-8") as file:
        file.writelines(json.dumps(row._asdict()) + "\n" for row in rows)
    with open(path + ".deaths", "w", encoding="utf-8") as file:
        file.writelines("%d\t%s\n" % death for death in deaths)


def one(folder, path):
    """All files by one process."""
    files, begun = sorted(glob.glob(folder + "/????")), time.monotonic()
    rows = [oopsbox_fleet.row(image, WORDS) for file in files for image in read_file(file)]
    deaths = oopsbox_fleet.deaths(rows)
    write(path, rows, deaths)
    return len(rows), time.monotonic() - begun


def kill_one(client, parts, process):
    """Kills a worker in the middle. Answers how many parts were lost with it, and how many parts there are."""
    while sum(part.done() for part in parts) < len(parts) // 3:
        time.sleep(0.01)
    holders = client.who_has(parts)
    os.kill(process, signal.SIGKILL)
    if all(part.done() for part in parts):
        sys.exit("drive: all was reported before a worker was killed")
    end = time.monotonic() + WAIT
    while len(client.scheduler_info()["workers"]) > 2:
        if time.monotonic() > end:
            sys.exit("drive: the engine did not see that a worker died")
        time.sleep(0.01)
    left = set(client.scheduler_info()["workers"])
    return sum(bool(held) and not left & set(held) for held in holders.values())


def dask_run(way, scheduler, count, folder, path, process=None):
    """All files by COUNT workers of the engine."""
    import dask.bag
    from distributed import Client, futures_of, wait
    client = Client(scheduler, timeout=WAIT)
    client.wait_for_workers(3, timeout=WAIT)
    workers = sorted(client.scheduler_info()["workers"])[:int(count)]
    files, begun = sorted(glob.glob(folder + "/????")), time.monotonic()
    if way == "sent":
        images = dask.bag.from_delayed(client.scatter([read_file(file) for file in files], workers=workers))
    else:
        images = dask.bag.from_sequence(files, partition_size=1).map(read_file).flatten()
    rows = oopsbox_fleet.rows(images, WORDS).persist(workers=workers)
    parts = futures_of(rows)
    if process:
        lost = kill_one(client, parts, int(process))
        print("a worker was killed: %d of %d parts were lost with it" % (lost, len(parts)))
    wait(parts)
    deaths = oopsbox_fleet.deaths(rows)
    told = rows.compute()
    seconds = time.monotonic() - begun
    write(path, told, deaths)
    client.close()
    return len(told), seconds


def day_of(row):
    """The day on which a machine died, in UTC."""
    return datetime.datetime.fromtimestamp(row["time"], datetime.timezone.utc).date().isoformat()


def lines_of(path):
    """A file's lines of JSON."""
    with open(path, encoding="utf-8") as file:
        return [json.loads(line) for line in file]


def days(rows, answer):
    """Whether a database counted as we do. Prints the first lines of its answer."""
    told = [row for row in lines_of(rows) if row["signature"] is not None and row["time"] is not None]
    counts = Counter((day_of(row), row["signature"]) for row in told if 0 <= row["time"] <= 4e9)
    answered = lines_of(answer)
    for line in answered[:8]:
        print("%s\t%d\t%s" % (line["day"], line["count"], line["signature"]))
    answers = {(line["day"], line["signature"]): line["count"] for line in answered}
    if counts != answers:
        sys.exit("drive: the database counts otherwise: %s" % sorted(counts.items() ^ answers.items())[:4])


def alike(rows):
    """Whether the oopses at different addresses have one signature, of those that are told without a bad part."""
    whole = [row for row in lines_of(rows) if row["zones_bad"] == 0 and (row["died"] or "").startswith(PAGING)]
    lines, signatures = {row["died"] for row in whole}, {row["signature"] for row in whole}
    if len(lines) < 2 or len(signatures) != 1:
        sys.exit("drive: %d lines have the signatures %s" % (len(lines), sorted(signatures)))
    print("alike: %d lines have the signature %s" % (len(lines), signatures.pop()))


def files(folder, to):
    """A file of each image of a file."""
    for i, (_, content) in enumerate(read_file(os.path.join(folder, "0000"))):
        path = os.path.join(to, "%03d" % i)
        with open(path, "wb") as file:
            file.write(content)
        print(path)
    print(os.path.join(to, "missing"))


def paths(one, rows):
    """Whether the rows of files are those of the same bytes, and that of no file has a fault."""
    *seen, missing = lines_of(rows)
    wanted = lines_of(one)[:len(seen)]
    for row in seen + wanted:
        del row["path"]
    if len(seen) != IN_A_FILE or seen != wanted or not missing["fault"]:
        sys.exit("drive: the rows of paths differ")
    print("paths: %d rows as before, and a missing file is a row: %s" % (len(seen), missing["fault"].split(":")[0]))


def main(way, *arguments):
    """What it took, as a line."""
    if way in ("days", "alike", "files", "paths"):
        return {"days": days, "alike": alike, "files": files, "paths": paths}[way](*arguments)
    count, seconds = one(*arguments) if way == "one" else dask_run(way, *arguments)
    print("%s: %d images, %.1f s, %d a second" % (way, count, seconds, count / seconds))


if __name__ == "__main__":
    main(*sys.argv[1:])
