"""The crash log store of Linux (ramoops), read and written by the proved library.

The module loads the library's shared object: the one that OOPSBOX_LIBRARY names if that is set, else liboopsbox.so in
this module's folder, else liboopsbox.so.0 as the system finds it (package liboopsbox0). `tools/build-library FOLDER`
makes it.

    >>> import oopsbox
    >>> region = open("region.bin", "rb").read()
    >>> for record in oopsbox.records(region, "mem_size=65536 ecc=1"):
    ...     print(record.name, len(record.content))

A process can log into a zone of its own, in a mapped file. What it appended is there after any end of it:

    >>> with oopsbox.Ring.open("pump.bin", mem_size=65536, record_size=0, ecc=1) as ring:
    ...     ring.append(b"the pump started\\n")

Parameters are words key=value with one space between, as on a kernel's command line. All words are str or bytes. Data,
images and scripts are bytes, or anything that has bytes: a bytearray, a memoryview, an array of any type.
"""

import ctypes
import mmap
import os
from collections import namedtuple

__all__ = ["Error", "Record", "Report", "Ring", "Run", "Zone", "boot", "layout", "records", "report", "rs_decode",
           "rs_encode", "run"]

DONE, FAULT, SHORT, ROOM, ARGUMENT, MEMORY, BAD, CLOSED, UNLAID, TREE = 0, 3, 4, 12, 13, 14, 15, 16, 17, 18

Zone = namedtuple("Zone", "kind index at size cap blocks parity block sig byte_order")
Record = namedtuple("Record", "name time content")
Run = namedtuple("Run", "status text image")
Report = namedtuple("Report", "text hint")

_KINDS = ("dump", "console", "ftrace", "pmsg")


class Error(Exception):
    """A call that did not do what was asked. `status` is what the library answered."""

    def __init__(self, status, message):
        super().__init__(message)
        self.status = status


class _Place(ctypes.Structure):
    _fields_ = [("kind", ctypes.c_uint16), ("byte_order", ctypes.c_uint16)] + [
        (name, ctypes.c_uint32) for name in Zone._fields[1:-1]]


class _LayoutAnswer(ctypes.Structure):
    _fields_ = [("zones", ctypes.c_uint64), ("word", ctypes.c_uint64), ("mem", ctypes.c_uint32),
                ("fault", ctypes.c_uint32)]


class _Lengths(ctypes.Structure):
    _fields_ = [("image", ctypes.c_uint64), ("text", ctypes.c_uint64)]


class _ReportAnswer(ctypes.Structure):
    _fields_ = [(name, ctypes.c_uint64) for name in ("hint", "text", "word")] + [
        ("fault", ctypes.c_uint32), ("needed", ctypes.c_uint32)]


class _Params(ctypes.Structure):
    _fields_ = [(name, ctypes.c_uint64) for name in (
        "mem", "dump", "console", "ftrace", "pmsg", "ecc", "cpus", "block", "ecc_dump", "ecc_console", "ecc_ftrace",
        "ecc_pmsg")] + [("ftrace_sig", ctypes.c_uint32), ("order", ctypes.c_uint16), ("byte_order", ctypes.c_uint16)]


class _ZoneAnswer(ctypes.Structure):
    _fields_ = [("log", ctypes.c_uint64)] + [(name, ctypes.c_uint32) for name in (
        "state", "sig", "start", "size", "corrected", "bad")]


class _Flight(ctypes.Structure):
    _fields_ = [("made", ctypes.c_uint64), ("payload", ctypes.c_uint64), ("zone", _Place)] + [
        (name, ctypes.c_uint32) for name in ("line", "kind", "old_sig", "old_start", "old_size", "leg", "start", "size",
                                             "phase", "block", "number")]


class _Boot(ctypes.Structure):
    _fields_ = [("made", ctypes.c_uint64), ("zone", _Place)] + [(name, ctypes.c_uint32) for name in (
        "phase", "erasure", "block", "within", "count")]


class _Store(ctypes.Structure):
    _fields_ = [("from_", ctypes.c_uint64), ("what", ctypes.c_uint32), ("place", ctypes.c_uint32),
                ("len", ctypes.c_uint32), ("word", ctypes.c_uint32), ("bytes", ctypes.c_uint8 * 128)]


class _Stores(ctypes.Structure):
    _fields_ = [("stores", _Store * 4), ("count", ctypes.c_uint32), ("is_last", ctypes.c_uint32)]


def _load():
    beside = os.path.join(os.path.dirname(os.path.abspath(__file__)), "liboopsbox.so")
    name = os.environ.get("OOPSBOX_LIBRARY") or (beside if os.path.exists(beside) else "liboopsbox.so.0")
    try:
        library = ctypes.CDLL(name)
    except OSError as error:
        raise ImportError("the library of oopsbox cannot be loaded (%s). Install the package liboopsbox0, or set "
                          "OOPSBOX_LIBRARY to the liboopsbox.so that tools/build-library makes" % error) from error
    piece, number = [ctypes.c_void_p, ctypes.c_size_t], ctypes.c_uint32
    zone = [ctypes.POINTER(_Place)] + piece
    shapes = {
        "oopsbox_rs_encode": piece + piece,
        "oopsbox_rs_decode": piece + piece + piece + [ctypes.POINTER(ctypes.c_uint32)],
        "oopsbox_layout": piece + piece + [ctypes.POINTER(_LayoutAnswer)],
        "oopsbox_run": piece + piece + piece + piece + [ctypes.POINTER(_Lengths)],
        "oopsbox_report": piece * 4 + [number] + piece + [ctypes.POINTER(_ReportAnswer)],
        "oopsbox_zone_at": [ctypes.POINTER(_Params), number, number, ctypes.POINTER(_Place),
                            ctypes.POINTER(_LayoutAnswer)],
        "oopsbox_table": [number] + piece,
        "oopsbox_append_begin": zone + piece + [ctypes.POINTER(_Flight)],
        "oopsbox_flight_next": [ctypes.POINTER(_Flight)] + piece * 4 + [number, ctypes.POINTER(_Stores)],
        "oopsbox_zone_read": zone + piece + [ctypes.POINTER(_ZoneAnswer)],
        "oopsbox_zone_log": zone + piece + [ctypes.c_uint64] + piece + [ctypes.POINTER(ctypes.c_uint64)],
        "oopsbox_boot_begin": zone + [ctypes.POINTER(_Boot)],
        "oopsbox_boot_next": [ctypes.POINTER(_Boot)] + piece + [ctypes.POINTER(_Stores)],
    }
    for name, arguments in shapes.items():
        call = getattr(library, name)
        call.argtypes, call.restype = arguments, ctypes.c_uint32
    return library


_library = _load()


def _bytes(content):
    # an array has fewer items than bytes, and bytes(5) are five zeros
    if isinstance(content, int):
        raise TypeError("bytes are wanted, not a number")
    return bytes(content)


def _words(words):
    return words.encode(errors="surrogateescape") if isinstance(words, str) else _bytes(words)


def _buffer(content, size=None):
    # ctypes has no array of 0 bytes that it can point to, so each has one more
    size = len(content) if size is None else size
    buffer = (ctypes.c_uint8 * (size + 1))()
    ctypes.memmove(buffer, content, len(content))
    return buffer


def rs_encode(data, parity_length):
    """The parity, of `parity_length` bytes, of 1 to 254 bytes of data; both together have at most 255."""
    data = _bytes(data)
    source, parity = _buffer(data), _buffer(b"", parity_length)
    status = _library.oopsbox_rs_encode(source, len(data), parity, parity_length)
    if status != DONE:
        raise Error(status, "no block has these lengths")
    return bytes(parity[:parity_length])


def rs_decode(data, parity):
    """Corrects data by its parity. Answers the data and the places, from 0, that were wrong, of parity too.

    Raises Error with status 15 if no codeword differs in at most half as many bytes as there is parity.
    """
    data, parity = _bytes(data), _bytes(parity)
    target, source, places = _buffer(data), _buffer(parity), _buffer(b"", len(parity))
    corrected = ctypes.c_uint32()
    status = _library.oopsbox_rs_decode(target, len(data), source, len(parity), places, len(parity),
                                        ctypes.byref(corrected))
    if status == BAD:
        raise Error(status, "no codeword is near enough")
    if status != DONE:
        raise Error(status, "no block has these lengths")
    return bytes(target[:len(data)]), list(places[:corrected.value])


def _layout(parameters):
    words, answer, room = _words(parameters), _LayoutAnswer(), 16
    while True:
        places = (_Place * room)()
        status = _library.oopsbox_layout(_buffer(words), len(words), places, room, ctypes.byref(answer))
        if status != ROOM:
            break
        room = answer.zones
    if status == FAULT:
        raise Error(status, "parameter fault %d at word %d" % (answer.fault, answer.word) if answer.word
                    else "layout fault %d" % answer.fault)
    if status != DONE:
        raise Error(status, "no text" if status == ARGUMENT else "no memory")
    zones = []
    for place in places[:answer.zones]:
        fields = [getattr(place, name) for name in Zone._fields]
        zones.append(Zone(_KINDS[fields[0]], *fields[1:]))
    return zones, answer.mem


def layout(parameters):
    """The zones of the parameters, in the order in which they lie. Raises Error with the fault if there is no layout.

    A zone's kind is "dump", "console", "ftrace" or "pmsg"; its other fields are those of the C header.
    """
    return _layout(parameters)[0]


def run(command, parameters, image=b"", script=b""):
    """Runs a command of the program on an image in memory, as run("list", "mem_size=65536", image).

    Answers the program's exit status, 0 to 10, what it would print, and what the image then holds. Raises Error only if
    the words are no text (13) or malloc answers NULL (14).
    """
    parts = [b"image", _words(command)] + ([_words(parameters)] if parameters else [])
    words, script, image = b" ".join(parts), _bytes(script), _bytes(image)
    image_room, text_room = len(image), 65536
    while True:
        lengths = _Lengths(len(image), 0)
        held, text = _buffer(image, image_room), _buffer(b"", text_room)
        status = _library.oopsbox_run(_buffer(words), len(words), _buffer(script), len(script), held, image_room, text,
                                      text_room, ctypes.byref(lengths))
        if status != ROOM:
            break
        image_room, text_room = max(image_room, lengths.image), max(text_room, lengths.text)
    if status in (ARGUMENT, MEMORY):
        raise Error(status, "no text" if status == ARGUMENT else "no memory")
    return Run(status, ctypes.string_at(text, lengths.text), ctypes.string_at(held, lengths.image))


def _done(answer):
    if answer.status != DONE:
        raise Error(answer.status, answer.text.decode(errors="replace").strip())
    return answer


def boot(parameters, image):
    """What a boot prints of each zone, and the image that it leaves, as a Run of status 0. Else raises Error."""
    return _done(run("run", parameters, image, b"boot\n"))


def records(image, parameters):
    """The records that the next boot would list of the image: name, time (of a dump, as text) and content.

    Raises Error with the program's exit status if the image is too short or the parameters are faulty.
    """
    image, found = _bytes(image), []
    for line in _done(run("list", parameters, image)).text.decode().splitlines()[1:]:
        name, _, time = (line.split(" ") + [None])[:3]
        found.append(Record(name, time, _done(run("extract " + name, parameters, image)).text))
    return found


_FORMATS = ("text", "json", "html")
_NO_MEM_SIZE = ("block_size", "ecc_dump", "ecc_console", "ecc_ftrace", "ecc_pmsg")
_SIZES = ("it has fewer than 4096 bytes", "all sizes are 0", "it has no whole pages of 4096 bytes",
          "a size is no multiple of 512", "its zones have no room", "an ftrace zone would have fewer than 12 bytes",
          "no dump zone has room")
_UNLAID = {1: "no layout was found", 2: "no layout explains it", 3: "not all layouts were tried"}
_TREE = {14: "the device tree has no ramoops node", 15: "the device tree has several ramoops nodes",
         16: "cpus=N is wanted: there is an ftrace zone for each processor"}


def _why(status, answer, hint):
    if status == FAULT and answer.word:
        return "parameter fault %d at word %d" % (answer.fault, answer.word)
    if status == FAULT and answer.fault > 200:
        return "the kernel takes no such sizes: %s" % _SIZES[answer.fault - 201]
    if status == FAULT and answer.fault > 100:
        return "%s needs mem_size: a layout with it is not looked for" % _NO_MEM_SIZE[answer.fault - 101]
    if status == FAULT:
        return "layout fault %d" % answer.fault
    if status == SHORT:
        return "the image is too short: the layout needs %d bytes" % answer.needed
    if status == UNLAID:
        return "; ".join([_UNLAID[answer.fault]] + hint.decode(errors="replace").splitlines())
    if status == TREE:
        return _TREE.get(answer.fault, "device tree fault %d" % answer.fault)
    return "no text, or no such format" if status == ARGUMENT else "no memory"


def report(image, words="", format="json", tree=b"", name="image"):
    """The report of an image as the program oopsreport prints it of a file: "text", "json" or "html".

    Words are parameters, as "mem_size=65536 ecc=1". A device tree gives the layout where there is one; without it and
    without mem_size the layout is looked for in the image. The name stands for the file's path. Answers a Report: the
    text, and as hint the lines on a layout that was looked for, both bytes. Without words and tree an image with a dump
    of the kernel's pstore_blk is a storage; with words as "pstore_blk.kmsg_size=64" any image is.

    Raises Error with status 3 if a word is faulty or there is no layout, 4 if the image is too short, 13 if the words
    or the name are no text or the format is none of the three, 17 if the layout was looked for and none is taken, 18 if
    the device tree gives none.
    """
    image, words, tree, name = _bytes(image), _words(words), _bytes(tree), _words(name)
    number = _FORMATS.index(format) if format in _FORMATS else len(_FORMATS)
    room, answer = 65536, _ReportAnswer()
    while True:
        text = _buffer(b"", room)
        status = _library.oopsbox_report(_buffer(name), len(name), _buffer(words), len(words), _buffer(tree), len(tree),
                                         _buffer(image), len(image), number, text, room, ctypes.byref(answer))
        if status != ROOM:
            break
        room = answer.text
    told = ctypes.string_at(text, answer.text if status in (DONE, UNLAID) else 0)
    if status != DONE:
        raise Error(status, _why(status, answer, told))
    return Report(told[answer.hint:], told[:answer.hint])


# The keys of parameters as numbers, the fields of the struct that they set, and the numbers of a key that is absent.
_KEYS = {"mem_size": ("mem", 0), "record_size": ("dump", 4096), "console_size": ("console", 4096),
         "ftrace_size": ("ftrace", 4096), "pmsg_size": ("pmsg", 4096), "ecc": ("ecc", 0), "cpus": ("cpus", 1),
         "block_size": ("block", 128), "ecc_dump": ("ecc_dump", None), "ecc_console": ("ecc_console", None),
         "ecc_ftrace": ("ecc_ftrace", None), "ecc_pmsg": ("ecc_pmsg", None), "ftrace_sig": ("ftrace_sig", 0),
         "order": ("order", 0), "byte_order": ("byte_order", 0)}
# The texts that a key takes in place of a number; the field has the text's place.
_CHOICES = {"order": ("console,ftrace,pmsg", "console,pmsg,ftrace"), "byte_order": ("little", "big")}
_FTRACE = 2
_WORD, _PAYLOAD, _BYTES = 0, 2, 3
_ROWS = 256
_MOST_MEMORY = 1 << 24


def _is_number(value):
    # ctypes would take any number, and keep its last 32 or 64 bits
    return 0 <= value < 1 << 32


def _place_of(key, value):
    """The number of a key's value: of a text that the key takes, its place among these."""
    if key not in _CHOICES:
        if not _is_number(value):
            raise Error(FAULT, "parameter fault 3: %s is no number below 4294967296" % key)
        return value
    if value not in _CHOICES[key]:
        raise ValueError("%s is one of: %s" % (key, " ".join(_CHOICES[key])))
    return _CHOICES[key].index(value)


def _numbers(values):
    unknown = set(values) - set(_KEYS)
    if unknown:
        raise TypeError("no such parameter: " + ", ".join(sorted(unknown)))
    params = _Params()
    for key, (field, absent) in _KEYS.items():
        absent = values.get("ecc", 0) if absent is None else absent
        setattr(params, field, _place_of(key, values[key]) if key in values else absent)
    # as the words are read: ecc=1 is 16 parity bytes, and mem_size is rounded down to a power of two
    for field in ("ecc", "ecc_dump", "ecc_console", "ecc_ftrace", "ecc_pmsg"):
        if getattr(params, field) == 1:
            setattr(params, field, 16)
    if 0 < params.mem <= _MOST_MEMORY:
        params.mem = 1 << (params.mem.bit_length() - 1)
    return params


def _zone_by_words(words, kind, index):
    zones, mem = _layout(words)
    for zone in zones:
        if (zone.kind, zone.index) == (kind, index):
            return _Place(_KINDS.index(kind), zone.byte_order, *zone[1:-1]), mem
    raise Error(ARGUMENT, "no zone %s %d" % (kind, index))


def _zone_by_numbers(values, kind, index):
    place, answer, params = _Place(), _LayoutAnswer(), _numbers(values)
    status = _library.oopsbox_zone_at(ctypes.byref(params), _KINDS.index(kind), index, ctypes.byref(place),
                                      ctypes.byref(answer)) if _is_number(index) else ARGUMENT
    if status == FAULT:
        raise Error(status, "layout fault %d" % answer.fault)
    if status != DONE:
        raise Error(status, "no zone %s %d" % (kind, index))
    return place, answer.mem


class Ring:
    """A zone in a mapped file, for an ordinary process: append to it, and read its log.

    Each store of an append is made in the file by itself, in the order in which a kernel makes it. So the log stands
    after any end of the process, SIGKILL too. An append that was cut is torn at most in the blocks that it touched.
    The file is a ramoops region: `oopsbox` and `oopsreport` read it with the same parameters. One process at a time may
    have a zone open, and one thread at a time may use a Ring. Two Rings on two zones of one file are fine.
    """

    def __init__(self, mapping, place):
        """Takes a mapped region and a place in it. `open` is the way to make one."""
        self._mapping, self._place = mapping, place
        self._view = (ctypes.c_uint8 * place.size).from_buffer(mapping, place.at)
        self._zone = (self._view, place.size)
        rows = _ROWS if place.parity else 0
        self._table = ((ctypes.c_uint64 * (2 * rows))() if rows else None, rows)
        if rows:
            _library.oopsbox_table(place.parity, *self._table)

    @classmethod
    def open(cls, path, kind="console", index=0, words=None, keep=True, **params):
        """Opens the zone of this kind and number in a file, and makes the file if it is not there.

        Parameters are numbers by keyword, as mem_size=65536, ecc=1, or a text of words, as "mem_size=65536 ecc=1"; what
        is absent is as on the program's command line. `order` and `byte_order` are texts in both. A zone that is no log
        is signed and erased. A log that is there is kept, its damage corrected. A boot of Linux does otherwise: it shows
        a console or a pmsg log once, in pstore, and erases it. With keep=False the zone is booted like that.

        All of the file is allocated, so on a full disk this raises OSError, and no later store fails. It raises Error
        if there is no such zone or no layout.
        """
        if words is not None and params:
            raise TypeError("parameters are words or keywords, not both")
        find = _zone_by_numbers if words is None else _zone_by_words
        place, mem = find(params if words is None else words, kind, index)
        file = os.open(path, os.O_RDWR | os.O_CREAT, 0o666)
        try:
            found = os.fstat(file)
            if found.st_size < mem or found.st_blocks * 512 < mem:
                # the first store into a hole is a SIGBUS if the disk is full
                os.posix_fallocate(file, 0, mem)
            mapping = mmap.mmap(file, mem)
        finally:
            os.close(file)
        ring = cls(mapping, place)
        if keep:
            ring._boot_kept()
        else:
            ring._boot(place)
        return ring

    def _make(self, stores, payload):
        for store in stores.stores[:stores.count]:
            self._make_one(store, payload)

    def _make_one(self, store, payload):
        if store.what == _WORD:
            ctypes.c_uint32.from_buffer(self._mapping, self._place.at + store.place).value = store.word
            return
        source, start = (payload, store.from_) if store.what == _PAYLOAD else (store.bytes, 0)
        for i in range(store.len):
            self._view[store.place + i] = source[start + i]

    def _boot(self, place):
        boot, stores = _Boot(), _Stores()
        status = _library.oopsbox_boot_begin(ctypes.byref(place), *self._zone, ctypes.byref(boot))
        while status == DONE:
            status = _library.oopsbox_boot_next(ctypes.byref(boot), *self._zone, ctypes.byref(stores))
            if status == DONE:
                self._make(stores, b"")
                if stores.is_last:
                    return
        raise Error(status, "the zone is refused")

    def _boot_kept(self):
        # a boot keeps an ftrace ring that can be appended to, and no other ring
        self._make_open()
        as_ftrace = _Place.from_buffer_copy(self._place)
        as_ftrace.kind = _FTRACE
        self._boot(as_ftrace)

    def _make_open(self):
        """Makes a ring one that can be appended to, by a store of one word, and of the header's parity if there is any.

        An append that was cut after its first word left a size that is ahead of the start. The size goes back: the ring
        is as before that append. A start at the ring's end goes to 0, which is the same place.
        """
        place, found = self._place, self._read()
        words = [found.sig, found.start, found.size]
        if found.log and found.start == place.cap:
            at, words[1] = 4, 0
        elif found.log and found.start != found.size and found.size != place.cap:
            at, words[2] = 8, found.start
        else:
            return
        header = b"".join(word.to_bytes(4, _CHOICES["byte_order"][place.byte_order]) for word in words)
        self._make_one(_Store(what=_WORD, place=at, word=int.from_bytes(header[at:at + 4], "little")), b"")
        if place.parity:
            parity = (ctypes.c_uint8 * 128)(*rs_encode(header, place.parity))
            at = 12 + place.cap + place.blocks * place.parity
            self._make_one(_Store(what=_BYTES, place=at, len=place.parity, bytes=parity), b"")

    def _read(self):
        answer = _ZoneAnswer()
        status = _library.oopsbox_zone_read(ctypes.byref(self._place), *self._zone, *self._table, ctypes.byref(answer))
        if status != DONE:
            raise Error(status, "the zone is refused")
        return answer

    def append(self, content):
        """Appends bytes, each store by itself. What is longer than the zone is cut to its end, as a kernel does.

        Raises Error with status 16 if the zone was changed from outside so that it cannot be appended to.
        """
        content = _bytes(content)
        payload, flight, stores = (_buffer(content), len(content)), _Flight(), _Stores()
        status = _library.oopsbox_append_begin(ctypes.byref(self._place), *self._zone, *payload, ctypes.byref(flight))
        while status == DONE:
            status = _library.oopsbox_flight_next(ctypes.byref(flight), *self._zone, None, 0, *payload, *self._table,
                                                  0xffffffff, ctypes.byref(stores))
            if status == DONE:
                self._make(stores, payload[0])
                if stores.is_last:
                    return
        raise Error(status, "the zone cannot be appended to")

    def log(self):
        """The log as bytes, oldest first, its damage corrected where that is possible. The file is not changed."""
        room, got = _buffer(b"", self._place.cap), ctypes.c_uint64()
        status = _library.oopsbox_zone_log(ctypes.byref(self._place), *self._zone, *self._table, 0, room,
                                           self._place.cap, ctypes.byref(got))
        if status != DONE:
            raise Error(status, "the zone is refused")
        return ctypes.string_at(room, got.value)

    def close(self):
        """Lets go of the file. What was appended is in it; after this the Ring is of no use."""
        if self._mapping is not None:
            self._zone = self._view = None
            self._mapping.close()
            self._mapping = None

    def __enter__(self):
        return self

    def __exit__(self, *error):
        self.close()
