"""The report through the library is what the program oopsreport prints: of both regions, of generated and damaged images
and of a board's device tree, in each format, by words and with the layout looked for. A refusal is one of the program's,
with its cause. A row of oopsbox_fleet has a death after 20 MiB.   Usage: report.py OOPSBOX OOPSREPORT IMAGES"""

import json
import os
import random
import re
import subprocess
import sys
import tempfile

import oopsbox
import oopsbox_fleet

box, program, images = sys.argv[1], sys.argv[2], int(sys.argv[3])
random.seed(7)
LAYOUTS = ("mem_size=16384 record_size=4096 console_size=4096 ftrace_size=4096 pmsg_size=4096 ecc=1",
           "mem_size=8192 record_size=1024 console_size=2048 ftrace_size=1024 pmsg_size=1024",
           "mem_size=65536 record_size=4096 console_size=8192 ftrace_size=4096 pmsg_size=4096 ecc=1 ecc_dump=32 "
           "ecc_console=5 ecc_pmsg=0 block_size=64 cpus=2",
           "mem_size=4096 record_size=0 ftrace_size=0 pmsg_size=0 ecc=2")
CAUSES = ((3, b"error: .*(is no parameter|again|gives no number|layout fault|needs mem_size)"), (4, b" bytes, and the layout needs "),
          (17, b"no layout was found|no layout explains it|not all layouts were tried"), (18, b"error: .*"))
# The program alone says that a search takes long.
SLOW = re.compile(rb"^oopsreport: .*: looking for its layout takes longer than usual\n", re.MULTILINE)
counts = {}


def asked(path, words, tree, form):
    arguments = [program, "--format", form]
    for word in words.split():
        arguments += ["--param", word]
    done = subprocess.run(arguments + (["--dtb", tree] if tree else []) + [path], capture_output=True)
    return done.returncode, done.stdout, SLOW.sub(b"", done.stderr)


def compare(path, words="", tree=None):
    with open(path, "rb") as file:
        image = file.read()
    blob = open(tree, "rb").read() if tree else b""
    for form in ("text", "json", "html"):
        status, output, errors = asked(path, words, tree, form)
        try:
            text, hint = oopsbox.report(image, words, form, blob, path)
        except oopsbox.Error as error:
            assert status in (1, 2) and not output, (path, words, str(error))
            causes = [cause for number, cause in CAUSES if number == error.status]
            assert causes and re.search(causes[0], errors), (path, words, error.status, errors)
            needed = re.search(r"needs (\d+) bytes", str(error))
            assert not needed or b"needs " + needed[1].encode() in errors, (path, errors)
            best = re.search(r"best layout: .*", str(error))
            assert not best or best[0].encode() in errors, (path, str(error), errors)
            counts[error.status] = counts.get(error.status, 0) + 1
            continue
        told = (text + hint, b"") if form == "text" else (text, hint)
        assert (status, output, errors) == (0,) + told, (path, words, form)
        counts[0] = counts.get(0, 0) + 1


def late_storage(path):
    """A storage with 20 MiB of other zones before its dumps."""
    with open("examples/pstore_blk/storage.bin", "rb") as file:
        storage = file.read()
    with open(path, "wb") as file:
        file.seek(20 << 20)
        file.write(storage)
    death = json.loads(asked(path, "", None, "json")[1])["death"]
    row = oopsbox_fleet.row(path)
    assert death and row.died == death["line"], (death, row)


def damaged(image):
    image = bytearray(image)
    for _ in range(random.choice((0, 3, 40, 400))):
        image[random.randrange(len(image))] = random.randrange(256)
    return bytes(image[:random.choice((len(image), len(image), random.randrange(len(image))))])


for region in ("oopses", "stock"):
    where = os.path.join("examples", region)
    with open(os.path.join(where, "parameters"), encoding="ascii") as file:
        parameters = file.read().strip()
    compare(os.path.join(where, "region.bin"), parameters)
    compare(os.path.join(where, "region.bin"))
    compare(os.path.join(where, "region.bin"), "ecc=1 pmsg_size=4096")
with tempfile.TemporaryDirectory() as folder:
    path, tree, broken = (os.path.join(folder, name) for name in ("image", "tree", "broken"))
    subprocess.run(["dtc", "-q", "-O", "dtb", "-o", tree, "examples/board.dts"], check=True)
    with open(tree, "rb") as file:
        blob = file.read()
    with open(broken, "wb") as file:
        file.write(blob[:-9])
    for number in range(images):
        words = LAYOUTS[number % len(LAYOUTS)]
        if os.path.exists(path):
            os.remove(path)
        subprocess.run([box, path, "make", str(number)] + words.split(), check=True, capture_output=True)
        with open(path, "rb") as file:
            image = damaged(file.read())
        with open(path, "wb") as file:
            file.write(image)
        compare(path, words)
        compare(path)
        compare(path, random.choice(("ecc=1", "ecx=1", "ecc=1 ecc=1", "ecc=x", "block_size=64", "mem_size=0", "ecc_pmsg=1")))
    for image in (b"", b"\0", bytes(40000), random.randbytes(70000)):
        with open(path, "wb") as file:
            file.write(image)
        compare(path)
        compare(path, "mem_size=32768 ecc=1")
        compare(path, "", tree)
        compare(path, "cpus=2", tree)
        compare(path, "cpus=2", broken)
    late_storage(path)
for wrong in (dict(format="xml"), dict(words=b"\xff"), dict(name=b"\xff")):
    try:
        oopsbox.report(bytes(4096), **wrong)
        raise AssertionError(wrong)
    except oopsbox.Error as error:
        assert error.status == 13, wrong
assert set(counts) == {0, 3, 4, 17, 18}, counts
print("reports as the program's: %d done, %d refused" % (counts[0], sum(counts.values()) - counts[0]))
