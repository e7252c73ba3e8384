"""What the checks of tools/report share: zones made byte by byte as the kernel writes them (fs/pstore/ram_core.c, struct
persistent_ram_buffer, without parity), runs of the program, and what a page shows of a record."""
import html.parser
import json
import os
import pathlib
import pty
import struct
import subprocess
import tempfile
import tty

SIGNATURE = 0x43474244
SAVED = "saved"


def zone(size, log=b"", tag=0, start=None):
    """A zone of so many bytes with this log. With a start the ring has wrapped, and the log begins there."""
    capacity = size - 12
    if start is None:
        assert len(log) < capacity
        data, start = log, len(log)
    else:
        assert len(log) == capacity
        data = log[capacity - start:] + log[:capacity - start]
    return struct.pack("<III", SIGNATURE ^ tag, start, len(log)) + data.ljust(capacity, b"\0")


def dump(size, seconds, body):
    """A dump zone with its time line (fs/pstore/ram.c, RAMOOPS_KERNMSG_HDR)."""
    return zone(size, b"====%d.000000-D\n" % seconds + body)


def visible(content):
    """Bytes as a page and a text show them."""
    return "".join(chr(b) if b in (9, 10) or (32 <= b < 127 and b != 92) else "\\x%02x" % b for b in content)


class Records(html.parser.HTMLParser):
    """The name, or none, and the text of each log of a page."""

    def __init__(self, page):
        super().__init__(convert_charrefs=True)
        self.logs, self.is_inside = [], False
        self.feed(page)

    def handle_starttag(self, tag, attrs):
        if tag == "pre" and ("class", "log") in attrs:
            self.logs.append([dict(attrs).get("id"), ""])
            self.is_inside = True

    def handle_endtag(self, tag):
        if tag == "pre":
            self.is_inside = False

    def handle_data(self, data):
        if self.is_inside:
            self.logs[-1][1] += data

    def text(self, name):
        """The lines of a record: logs without a name are lines before and after the one beside them. A browser drops
        the first newline of a `pre`."""
        names = [log[0] for log in self.logs]
        first = last = names.index(name)
        while first > 0 and names[first - 1] is None:
            first -= 1
        while last + 1 < len(names) and names[last + 1] is None:
            last += 1
        return "".join(text.removeprefix("\n") for _, text in self.logs[first : last + 1])


class Checks:
    """The program on images in a folder of its own, and what was wrong."""

    def __init__(self, program):
        self.program = program
        self.folder = tempfile.TemporaryDirectory()
        self.path = pathlib.Path(self.folder.name)
        self.count = self.wrong = 0

    def check(self, is_so, what):
        self.count += 1
        if not is_so:
            self.wrong += 1
            print("report-checks: " + what)

    def same(self, got, wanted, what):
        self.check(got == wanted, f"{what}:\n  {got!r}\nis not\n  {wanted!r}")

    def write(self, name, content):
        (self.path / name).write_bytes(content)

    def run(self, *words):
        """The two outputs and the status, without a terminal."""
        ran = subprocess.run([self.program, *words], cwd=self.path, capture_output=True)
        return ran.stdout.decode(), ran.stderr.decode(), ran.returncode

    def done(self, *words):
        """What a run prints that must be done."""
        out, err, status = self.run(*words)
        self.check(status == 0, f"status {status} of {words}: {err}")
        return out

    def terminal_run(self, stream, *words, **environment):
        """What a terminal gets from a run of which it is one output (1 or 2) or both (3), and what a file gets from the
        other."""
        master, slave = pty.openpty()
        tty.setraw(slave)
        with tempfile.TemporaryFile() as other:
            streams = {"stdout": slave if stream & 1 else other, "stderr": slave if stream & 2 else other}
            env = {key: value for key, value in os.environ.items() if key != "NO_COLOR"} | environment
            run = subprocess.Popen([self.program, *words], cwd=self.path, env=env, stdin=subprocess.DEVNULL, **streams)
            os.close(slave)
            shown = b"".join(pieces(master))
            self.check(run.wait() == 0, f"status of {words} on a terminal")
            other.seek(0)
            return shown.decode(), other.read().decode()

    def record(self, name, *words):
        """A record in the line of JSON, in the page, and as it is saved."""
        line = json.loads(self.done("--format", "json", *words))
        page = self.done("--format", "html", *words)
        folder = tempfile.mkdtemp(dir=self.path)
        self.done("--save", folder, *words)
        found = next(it for it in line["records"] if it["name"] == name)
        return found, Records(page).text(name), (pathlib.Path(folder) / name).read_bytes()

    def end(self, what):
        if not self.wrong:
            print(f"{what}: {self.count} checks")
        return 1 if self.wrong else 0


def pieces(terminal):
    """What comes from a terminal until nothing has it open."""
    while True:
        try:
            piece = os.read(terminal, 65536)
        except OSError:
            piece = b""
        if not piece:
            os.close(terminal)
            return
        yield piece


def tail(text, heading):
    """The rows of a text below a heading, up to the free line behind them."""
    rows = text.split("\n")
    if heading not in rows:
        return None
    rest = rows[rows.index(heading) + 1:]
    return rest[:rest.index("")] if "" in rest else rest
