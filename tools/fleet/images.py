"""Makes the images of a fleet for tools/fleet-check.   tools/fleet/images.py FOLDER IMAGES

FOLDER gets files of 1,000 images one after the other, each of SIZE bytes but for those that are cut short; a file has
its images' lengths in FILE.lengths. Ten machines of each file are made by `make N`, die of one of the messages below,
and give a hundred images each, every one damaged in its own way. A number decides everything.
"""
import array
import concurrent.futures
import os
import random
import sys

import oopsbox

SIZE = 16384
WORDS = "mem_size=16384 ftrace_size=0 ecc=1"
IN_A_FILE, MACHINES = 1000, 10
DAY, FIRST = 86400, 1764201600
TRACE = ["CPU: 1 PID: 42 Comm: app Not tainted 6.1.0 #1", "RIP: 0010:do_work+0x1f/0x40", "Call Trace:",
         " run_work+0x1f/0x80", " kthread+0xd7/0x100"]
PAGING = "Unable to handle kernel paging request at virtual address "
DEATHS = [
    ("Panic", ["Kernel panic - not syncing: sysrq triggered crash"]),
    ("Panic", ["BUG: kernel NULL pointer dereference, address: 0000000000000010", *TRACE,
               "Kernel panic - not syncing: Fatal exception"]),
    ("Panic", ["Kernel panic - not syncing: Out of memory: system-wide panic_on_oom is enabled"]),
    ("Oops", [PAGING + "ffff80001234%04x", *TRACE]),
    ("Panic", ["watchdog: BUG: soft lockup - CPU#1 stuck for 22s! [app:42]",
               "Kernel panic - not syncing: softlockup: hung tasks"]),
    ("Oops", ["general protection fault, probably for non-canonical address 0xdead000000000100: 0000 [#1] SMP",
              *TRACE]),
    ("Panic", ["Kernel panic - not syncing: VFS: Unable to mount root fs on unknown-block(0,0)"]),
    ("Shutdown", ["reboot: Restarting system"]),
]


def machine(number):
    """The image of a machine that was used and then died."""
    used = oopsbox.run("make %d" % number, WORDS).image
    reason, lines = DEATHS[number % 31 % len(DEATHS)]
    lines = [line % number if line.startswith(PAGING) else line for line in lines]
    text = "%s#1 Part1\n%s" % (reason, "".join("<4>[    3.%06d] %s\n" % (i, line) for i, line in enumerate(lines)))
    script = "boot\ndump %d %d D %s\n" % (FIRST + number % 7 * DAY + number, number, text.encode().hex())
    done = oopsbox.run("run", WORDS, used, script.encode())
    if done.status != 0:
        raise oopsbox.Error(done.status, done.text.decode())
    return done.image


def damaged(image, number):
    """The image as it is found: with flipped bytes, a bad part, cut short, or not a region at all."""
    draw, found = random.Random(number), bytearray(image)
    kind = draw.randrange(100)
    if kind == 0:
        return found[:draw.randrange(SIZE)]
    if kind == 1:
        return draw.randbytes(SIZE)
    for _ in range(draw.randrange(1, 9)):
        found[draw.randrange(SIZE)] ^= draw.randrange(1, 256)
    if kind < 30:
        place = draw.randrange(SIZE - 64)
        found[place:place + 64] = draw.randbytes(64)
    return found


def make_file(path, number):
    """Makes the file of a number."""
    lengths = array.array("I")
    with open(path, "wb") as file:
        for i in range(MACHINES):
            image = machine(number * MACHINES + i)
            for j in range(IN_A_FILE // MACHINES):
                content = damaged(image, number * IN_A_FILE + i * IN_A_FILE // MACHINES + j)
                lengths.append(len(content))
                file.write(content)
    with open(path + ".lengths", "wb") as file:
        lengths.tofile(file)


def read_file(path):
    """The images of a file, each as its name and its bytes."""
    lengths = array.array("I")
    with open(path + ".lengths", "rb") as file:
        lengths.frombytes(file.read())
    with open(path, "rb") as file:
        return [("%s/%d" % (os.path.basename(path), i), file.read(length)) for i, length in enumerate(lengths)]


def main(folder, images):
    """Makes all files, with all processors."""
    count = int(images) // IN_A_FILE
    with concurrent.futures.ProcessPoolExecutor() as pool:
        jobs = [pool.submit(make_file, os.path.join(folder, "%04d" % number), number) for number in range(count)]
        for job in jobs:
            job.result()


if __name__ == "__main__":
    main(*sys.argv[1:])
