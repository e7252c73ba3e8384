"""A Ring of the Python module: what was appended is there for the next process and for the program, whatever the end of
the process was, also if the next one ends as it opens the file; a full ring has the last bytes; the file has no holes;
numbers that are too large are refused.   Usage: ring.py PROGRAM"""

import os
import signal
import subprocess
import sys
import tempfile

import oopsbox

PROGRAM = os.path.abspath(sys.argv[1])
WORDS = "mem_size=16384 record_size=0 console_size=8192 ftrace_size=0 pmsg_size=4096 ecc=%d"


def numbers(words):
    return {key: int(value) for key, value in (word.split("=") for word in words.split(" "))}


def extracted(path, words, name):
    command = [PROGRAM, path, "extract", name, *words.split(" ")]
    return subprocess.run(command, stdout=subprocess.PIPE, check=True).stdout


def refused(error, call, *arguments, **named):
    try:
        call(*arguments, **named)
    except error:
        return True
    return False


class Cut(Exception):
    """The process ends here."""


def is_cut(count, call):
    """Makes at most so many stores of a call. Answers whether it has more."""
    make_one, made = oopsbox.Ring._make_one, []

    def one(ring, store, payload):
        if len(made) == count:
            raise Cut
        made.append(store)
        make_one(ring, store, payload)

    oopsbox.Ring._make_one = one
    try:
        call()
    except Cut:
        return True
    finally:
        oopsbox.Ring._make_one = make_one
    return False


def reopen(path, words):
    oopsbox.Ring.open(path, words=words).close()


def contents_of(path):
    with open(path, "rb") as file:
        return file.read()


def put(path, at, content):
    with open(path, "r+b") as file:
        file.seek(at)
        file.write(content)


def cut_twice(path, words):
    """An append is cut after each of its stores, and then the opening: what was there before is there.

    The append changes both low bytes of the size, so one of them alone is another size, and no byte of block 0. After
    its words alone nothing else differs.
    """
    with oopsbox.Ring.open(path, words=words) as ring:
        ring.append(b"0123456789" * 25)
        before = ring.log()
    image, parity = contents_of(path), ring._place.parity
    for first in range(100):
        put(path, 0, image)
        with oopsbox.Ring.open(path, words=words) as ring:
            has_more = is_cut(first, lambda: ring.append(b"second line...\n"))
        after_one = contents_of(path)
        for second in range(100):
            put(path, 0, after_one)
            opening_has_more = is_cut(second, lambda: reopen(path, words))
            with oopsbox.Ring.open(path, words=words) as ring:
                log = ring.log()
                assert len(log) in (250, 265) and log[:128] == before[:128], (first, second, log)
                assert first > 2 or log[:250] == before, (first, second, log)
                assert first != 1 or log == before, (first, second, log)
                ring.append(b"!")
                assert ring.log() == log + b"!"
            if not opening_has_more:
                break
        if not has_more:
            break
    assert log == before + b"second line...\n" and first >= (3 if parity == 0 else 4)


def not_open(path, words, byte_order):
    """Headers that are whole, of rings that cannot be appended to: a size that is ahead, and a start at the end."""
    with oopsbox.Ring.open(path, words=words, keep=False) as ring:
        place, data = ring._place, bytes(i % 251 for i in range(ring._place.cap))
        ring.append(data)
    image = contents_of(path)
    for start, size, log in ((3, 9, data[:3]), (0, 9, b""), (300, 1000, data[:300]), (place.cap, place.cap, data)):
        header = b"".join(word.to_bytes(4, byte_order) for word in (place.sig, start, size))
        put(path, 0, image)
        put(path, place.at, header)
        if place.parity:
            put(path, place.at + 12 + place.cap + place.blocks * place.parity, oopsbox.rs_encode(header, place.parity))
        with oopsbox.Ring.open(path, words=words) as ring:
            assert ring.log() == log, (start, size)
            assert (ring._read().corrected, ring._read().bad) == (0, 0)
            ring.append(b"!")
            assert ring.log() == (log + b"!")[-place.cap:]


def error_of(path, **values):
    try:
        oopsbox.Ring.open(path, **values)
    except oopsbox.Error as error:
        return error
    raise AssertionError(values)


def has_no_holes(path):
    return os.stat(path).st_blocks * 512 >= os.path.getsize(path)


def out_of_range(path):
    """Numbers that words refuse are refused by keyword, as faults of parameters; a zone's number is the zone's."""
    for number in (-1, 1 << 32, (1 << 32) + 16384, (1 << 64) + 16384):
        for key in ("mem_size", "record_size", "ecc", "ecc_pmsg", "cpus", "block_size", "ftrace_sig"):
            for values in ({"words": "%s=%d" % (key, number)}, {"mem_size": 16384, key: number}):
                error = error_of(path, **values)
                assert error.status == oopsbox.FAULT and "parameter fault 3" in str(error), (values, error)
        for values in ({"words": "mem_size=16384"}, {"mem_size": 16384}):
            assert error_of(path, index=number, **values).status == oopsbox.ARGUMENT, number
    assert not os.path.exists(path)


def one_file(path, ecc):
    words = WORDS % ecc
    lines = [b"line %d\n" % i for i in range(700)]
    with oopsbox.Ring.open(path, **numbers(words)) as console, oopsbox.Ring.open(path, "pmsg", words=words) as pmsg:
        assert console.log() == b"" and os.path.getsize(path) == 16384 and has_no_holes(path)
        for line in lines[:300]:
            console.append(line)
        pmsg.append(b"message")
        assert console.log() == b"".join(lines[:300]) and pmsg.log() == b"message"
    assert extracted(path, words, "console-ramoops-0").startswith(b"".join(lines[:300]))
    child = os.fork()
    if child == 0:
        ring = oopsbox.Ring.open(path, words=words)
        for line in lines[300:]:
            ring.append(bytearray(line))
        os.kill(os.getpid(), signal.SIGKILL)
    assert os.WTERMSIG(os.waitpid(child, 0)[1]) == signal.SIGKILL
    with oopsbox.Ring.open(path, words=words) as ring:
        log = ring.log()
        assert b"".join(lines).endswith(log) and len(log) == ring._place.cap or log == b"".join(lines)
        assert extracted(path, words, "console-ramoops-0").startswith(log)
    if ecc:
        damaged(path, words, log)
    with oopsbox.Ring.open(path, words=words, keep=False) as ring:
        assert ring.log() == b""
        ring.append(b"again" * 5000)
        assert (b"again" * 5000).endswith(ring.log()) and len(ring.log()) == ring._place.cap
    with oopsbox.Ring.open(path, "pmsg", words=words) as pmsg:
        assert pmsg.log() == b"message"


def damaged(path, words, log):
    """Six bytes wrong in a block, of 16 bytes of parity, and four in the header."""
    with open(path, "r+b") as file:
        for place in (4, 5, 8, 9, 40, 41, 42, 50, 60, 70):
            file.seek(place)
            byte = file.read(1)[0]
            file.seek(place)
            file.write(bytes([byte ^ 0x5a]))
    with oopsbox.Ring.open(path, words=words) as ring:
        assert ring.log() == log
        assert ring._read().corrected == 0
        ring.append(b"!")
        assert ring.log().endswith(b"!")


with tempfile.TemporaryDirectory() as folder:
    for ecc in (0, 1, 32):
        one_file(os.path.join(folder, "region-%d" % ecc), ecc)
    path = os.path.join(folder, "sparse")
    with open(path, "wb") as file:
        file.truncate(20000)
    reopen(path, WORDS % 0)
    assert os.path.getsize(path) == 20000 and os.stat(path).st_blocks * 512 >= 16384
    for ecc in (0, 1, 2, 32):
        for byte_order in ("little", "big"):
            words = "%s byte_order=%s" % (WORDS % ecc, byte_order)
            cut_twice(os.path.join(folder, "cut-%d-%s" % (ecc, byte_order)), words)
            not_open(os.path.join(folder, "closed-%d-%s" % (ecc, byte_order)), words, byte_order)
    path = os.path.join(folder, "other")
    out_of_range(path)
    assert refused(oopsbox.Error, oopsbox.Ring.open, path, mem_size=4096) and not os.path.exists(path)
    without = "mem_size=4096 record_size=0 ftrace_size=0 pmsg_size=0"
    assert refused(oopsbox.Error, oopsbox.Ring.open, path, "pmsg", words=without)
    assert refused(TypeError, oopsbox.Ring.open, path, mem=4096)
    assert refused(ValueError, oopsbox.Ring.open, path, "kmsg", mem_size=65536)
print("rings of Python as the program reads them")
