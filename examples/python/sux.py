"""Dumps of `sux` in process, over the library of include/sux.h by ctypes.

The library is the archive as a shared one:
cc -shared -o libsux.so -Wl,--whole-archive libsux_c.a liblibc_c.a -Wl,--no-whole-archive
"""

import ctypes as c
import mmap

KINDS = ("func", "lcp", "lcp2", "hollow", "hollowdist", "zfast")
METHODS = ("mwhc", "gov3")

DONE, TOO_LONG, NO_ROOM = 0, 1, 9


class Place(c.Structure):
    _fields_ = [("what", c.c_uint32), ("width", c.c_uint32), ("count", c.c_uint64), ("below", c.c_uint64),
                ("body", c.c_size_t), ("after", c.c_size_t)]


class Header(c.Structure):
    _fields_ = [("seed", c.c_uint64), ("keys", c.c_uint32), ("sig_bits", c.c_uint32), ("log_bucket", c.c_uint32),
                ("signed_bits", c.c_uint32), ("handle_bits", c.c_uint32), ("kind", c.c_uint8), ("method", c.c_uint8)]


class Found(c.Structure):
    _fields_ = [("header", Header), ("count", c.c_size_t), ("places", Place * 11), ("longest", c.c_uint32)]


class Part(c.Structure):
    _fields_ = [("words", c.POINTER(c.c_uint64)), ("count", c.c_size_t)]


class Handle(c.Structure):
    _fields_ = [("words", c.POINTER(c.c_uint64)), ("word_count", c.c_size_t), ("rooms", Part * 7), ("found", Found),
                ("opened", c.c_bool)]


class Line(c.Structure):
    _fields_ = [("bytes", c.c_char_p), ("size", c.c_size_t)]


class Plan(c.Structure):
    _fields_ = [("log_bucket", c.c_uint32), ("sig_bits", c.c_uint32), ("handle_bits", c.c_uint32),
                ("signed_bits", c.c_uint32), ("kind", c.c_uint8), ("method", c.c_uint8)]


class Failure(c.Structure):
    _fields_ = [("part", c.c_uint32), ("cause", c.c_uint32), ("first", c.c_uint32), ("second", c.c_uint32)]


class Failures(c.Structure):
    _fields_ = [("count", c.c_size_t), ("list", Failure * 16)]


class Told(c.Structure):
    _fields_ = [("words", c.c_uint64), ("seed", c.c_uint64), ("number", c.c_uint64), ("rule", c.c_uint32),
                ("failures", Failures)]


# as include/sux.h has them
assert c.sizeof(Handle) == 624 and Handle.opened.offset == 616
assert c.sizeof(Plan) == 20 and c.sizeof(Told) == 296 and Told.failures.offset == 32


class Refused(Exception):
    """A status other than the one of success, and what was told beside it."""

    def __init__(self, status, told):
        super().__init__(f"status {status}, {told}")
        self.status = status


def load(name):
    """The library in this file."""
    calls = c.CDLL(name)
    words, numbers, lines, marks = (c.POINTER(kind) for kind in (c.c_uint64, c.c_uint64, Line, c.c_uint8))
    calls.sux_open.argtypes = [words, c.c_size_t, c.c_uint64, words, c.c_size_t, c.POINTER(Handle), marks, numbers]
    calls.sux_replies.argtypes = [c.POINTER(Handle), lines, c.c_size_t, numbers, c.c_size_t, marks, c.c_size_t]
    calls.sux_keys.argtypes = [c.POINTER(Handle)]
    calls.sux_build.argtypes = [lines, c.c_size_t, numbers, c.c_size_t, c.POINTER(Plan), numbers, c.c_size_t, words,
                                c.c_size_t, c.POINTER(Told)]
    calls.sux_open.restype = calls.sux_replies.restype = calls.sux_build.restype = c.c_uint8
    calls.sux_keys.restype = c.c_uint64
    return calls


def lines_of(texts):
    """Lines as the library takes them. They point into the texts, which have to be kept."""
    return (Line * len(texts))(*((text, len(text)) for text in texts))


def mapped_words(name):
    """The words of a file, where they are mapped, and how many bytes it has."""
    with open(name, "rb") as file:
        size = file.seek(0, 2)
        if size % 8 or size == 0:
            # of no dump, and a last word has to be filled up
            file.seek(0)
            return (c.c_uint64 * (size // 8 + 1)).from_buffer_copy(file.read().ljust(size + 8, b"\0")), size
        # private, so that it may be handed over as what could be written
        return (c.c_uint64 * (size // 8)).from_buffer(mmap.mmap(file.fileno(), 0, access=mmap.ACCESS_COPY)), size


class Dump:
    """A dump in a mapped file."""

    def __init__(self, calls, name):
        self.calls = calls
        # the handle points into these words
        self.words, size = mapped_words(name)
        # no pointer of a handle is null, of one that isn't open either
        self.handle = Handle(self.words, 0, (Part * 7)(*7 * [(self.words, 0)]), Found(), False)
        check, wanted, status = c.c_uint8(), c.c_uint64(), NO_ROOM
        while status == NO_ROOM:
            # beside a hollow trie, which tells how much it takes; the handle points into it too
            self.room = (c.c_uint64 * wanted.value)()
            status = calls.sux_open(self.words, (size + 7) // 8, size, self.room, len(self.room), self.handle, check,
                                    wanted)
        if status != DONE:
            raise Refused(status, f"check {check.value}")

    def __len__(self):
        return self.calls.sux_keys(self.handle)

    def replies(self, texts):
        """The number of each line, none where the dump knows none: one call for all."""
        count = len(texts)
        values, statuses = (c.c_uint64 * count)(), (c.c_uint8 * count)()
        status = self.calls.sux_replies(self.handle, lines_of(texts), count, values, count, statuses, count)
        if status != DONE or TOO_LONG in statuses:
            raise Refused(status or TOO_LONG, "no reply")
        return [None if status else value for value, status in zip(values, statuses)]


def build(calls, keys, kind="func", method="mwhc", seeds=(0, 1, 2, 3), log_bucket=0, sig_bits=192, handle_bits=0,
          signed_bits=0, values=()):
    """The bytes of the dump of keys that rise, and what was told of it."""
    plan = Plan(log_bucket, sig_bits, handle_bits, signed_bits, KINDS.index(kind), METHODS.index(method))
    lines, numbers, tries = lines_of(keys), (c.c_uint64 * len(values))(*values), (c.c_uint64 * len(seeds))(*seeds)
    told = Told()
    # too little room tells how much it takes
    told.words = 1024 + sum(len(key) for key in keys) // 8
    status = NO_ROOM
    while status == NO_ROOM:
        out = (c.c_uint64 * told.words)()
        status = calls.sux_build(lines, len(keys), numbers, len(values), plan, tries, len(seeds), out, len(out), told)
    if status != DONE:
        raise Refused(status, f"key {told.number}, rule {told.rule}, {told.failures.count} seeds failed")
    return memoryview(out).cast("B")[:8 * told.words], told
