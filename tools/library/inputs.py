"""Each call of the Python module takes words as str or bytes, and content as anything that has bytes. The answers are
those of plain bytes; what has no bytes is refused."""

from array import array

import oopsbox

DATA = bytes(range(1, 41))
WORDS = "mem_size=4096 record_size=0 ftrace_size=0 pmsg_size=0"


def forms(content):
    """The same bytes in other types; the length is even."""
    return [bytearray(content), memoryview(content), array("B", content), array("H", content),
            memoryview(array("H", content)), memoryview(bytearray(content))]


def refused(error, call, *arguments):
    try:
        call(*arguments)
    except error:
        return True
    return False


parity = oopsbox.rs_encode(DATA, 16)
assert len(parity) == 16
wrong = b"\x00\xff" + DATA[2:]
assert oopsbox.rs_decode(wrong, parity) == (DATA, [0, 1])
for data, code, damaged in zip(forms(DATA), forms(parity), forms(wrong)):
    assert oopsbox.rs_encode(data, 16) == parity, type(data)
    assert oopsbox.rs_decode(damaged, code) == (DATA, [0, 1]), type(data)

zones = oopsbox.layout(WORDS)
assert [zone.kind for zone in zones] == ["console"] and zones[0].cap == 4084
assert oopsbox.layout(WORDS.encode()) == zones and oopsbox.layout(bytearray(WORDS.encode())) == zones

image = oopsbox.run("run", WORDS, bytes(4096), b"boot\nwrite console 616263\n").image
assert len(image) == 4096
listed = oopsbox.run("list", WORDS, image)
assert listed.status == 0 and listed.text == b"records 1\nconsole-ramoops-0 3\n"
booted = oopsbox.boot(WORDS, image)
found = oopsbox.records(image, WORDS)
assert found == [oopsbox.Record("console-ramoops-0", None, b"abc")]
for other in forms(image):
    for words in (WORDS, WORDS.encode()):
        assert oopsbox.run("list", words, other) == listed, type(other)
        assert oopsbox.run(b"list", words, other) == listed, type(other)
        assert oopsbox.boot(words, other) == booted, type(other)
        assert oopsbox.records(other, words) == found, type(other)
for script in forms(b"boot\nwrite console 616263\n"):
    assert oopsbox.run("run", WORDS, bytes(4096), script).image == image, type(script)
assert oopsbox.run("--version", "") == oopsbox.run(b"--version", b"")

assert refused(TypeError, oopsbox.rs_encode, 5, 2) and refused(TypeError, oopsbox.rs_decode, DATA, 16)
assert refused(TypeError, oopsbox.run, "list", WORDS, 4096) and refused(TypeError, oopsbox.run, "list", WORDS, "text")
assert refused(TypeError, oopsbox.layout, 7)
for words in (b"mem_size=\xff", "mem_size=\udcff"):
    assert refused(oopsbox.Error, oopsbox.layout, words)
    assert refused(oopsbox.Error, oopsbox.records, image, words)
print("inputs of each type as bytes")
