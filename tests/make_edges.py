#!/usr/bin/env python3
"""Writes the edge cases of crates/vectors/data: bundles with the listing that they must give.

It knows the format from docs/bundle.md and nothing of the Rattle code, and works out each expected
text on a way of its own. Run it from the repository's root; what it writes is committed.
"""
import os

DATA = "crates/vectors/data"
LIMIT = 2**38 - 1
KINDS = {1: "enrol", 3: "event", 4: "stay", 5: "relax", 8: "tick", 9: "read", 10: "write",
         11: "step", 12: "autosleep", 13: "round", 14: "load"}
FIELDS = {1: 3, 3: 2, 4: 1, 5: 1, 8: 0, 9: 0, 10: 1, 11: 0, 12: 1, 13: 0, 14: 2}


def num(n):
    out = []
    while n > 127:
        out.append(n & 127 | 128)
        n >>= 7
    return bytes(out + [n])


def rec(d, kind, *fields, name=None):
    b = num(d) + num(kind) + b"".join(num(f) for f in fields)
    return b if name is None else b + num(len(name)) + name


def bundle(*tracks, platform=1, clock=1):
    head = bytes([1, platform, clock, 0]) + num(len(tracks)) + b"".join(num(len(t)) for t in tracks)
    return head + b"".join(tracks)


class Bad(Exception):
    pass


class Reader:
    """A stretch of the bundle, read from an offset up to an end."""

    def __init__(self, data, at, end, track, record):
        self.data, self.at, self.end, self.track, self.record = data, at, end, track, record

    def bad(self, layer, cause, at):
        raise Bad(f"fault {layer} {cause} {at} {self.track} {self.record}\n")

    def number(self):
        start, value = self.at, 0
        for i in range(6):
            if self.at >= self.end:
                self.bad(1, 1, start)
            b = self.data[self.at]
            self.at += 1
            value += (b & 127) << 7 * i
            if b < 128:
                if i and b == 0:
                    self.bad(1, 3, start)
                return value
        self.bad(1, 2, start)

    def value(self, low, high):
        start = self.at
        n = self.number()
        if not low <= n <= high:
            self.bad(4, 7, start)
        return n


def quoted(name):
    return '"' + "".join(chr(b) if 32 <= b < 127 and b not in b'"\\' else "\\x%02X" % b for b in name) + '"'


def listing(data):
    try:
        if len(data) > 60000:
            raise Bad("fault 4 9 60000 255 0\n")
        h = Reader(data, 0, len(data), 255, 0)
        h.value(1, 1)
        platform, clock = h.value(1, 2), h.value(1, 2)
        h.value(0, 0)
        lengths = [0] * h.value(1, 8)
        for i in range(len(lengths)):
            lengths[i] = h.number()
        if h.at + sum(lengths) != len(data):
            h.bad(4, 8, h.at)
        text = "platform %s clock %s tracks %d\n" % (
            ["idle", "firmware"][platform - 1], ["track", "tick"][clock - 1], len(lengths))
        at = h.at
        for t, n in enumerate(lengths):
            r, stamp, at = Reader(data, at, at + n, t, 0), 0, at + n
            while r.at < r.end:
                start = r.at
                stamp += r.number()
                if stamp > LIMIT:
                    r.bad(3, 6, start)
                start = r.at
                kind = r.number()
                if kind not in KINDS:
                    r.bad(2, 4, start)
                fields = [r.number() for _ in range(FIELDS[kind])]
                words = [stamp, t, KINDS[kind]] + fields
                if kind == 1:
                    if r.at + fields[2] > r.end:
                        r.bad(2, 5, r.at)
                    words[-1] = quoted(data[r.at:r.at + fields[2]])
                    r.at += fields[2]
                text += " ".join(map(str, words)) + "\n"
                r.record += 1
            text += f"track {t} records {r.record}\n"
        return text
    except Bad as fault:
        return str(fault)


RANGES = [0, 127, 128, 2**14 - 1, 2**14, 2**21 - 1, 2**21, 2**28 - 1, 2**28, 2**35 - 1, 2**35, 2**42 - 1]
TICK = rec(0, 8)
CASES = {
    "number-ranges": bundle(b"".join(rec(0, 3, n, n) for n in RANGES)),
    "number-goes-on": bundle(rec(0, 4) + b"\xff\xff\xff\xff\xff\xff\x00"),
    "number-sixth-group": bundle(rec(0, 4) + b"\xff\xff\xff\xff\xff\x7f"),
    "number-five-and-the-end": bundle(rec(0, 4) + b"\xff\xff\xff\xff\xff"),
    "number-zero-in-two": bundle(rec(0, 4) + b"\x80\x00"),
    "number-zero-in-six": bundle(rec(0, 4) + b"\x80\x80\x80\x80\x80\x00"),
    "number-zero": bundle(rec(0, 4) + b"\x00"),
    "number-cut-by-its-track": bundle(rec(0, 4) + b"\x80", TICK),
    "number-missing-at-the-end": bundle(rec(0, 3, 1)),
    "empty": b"",
    "only-a-version": b"\x01",
    "header-not-shortest": b"\x81\x00\x01\x01\x00\x01\x00",
    "version-0": bundle(TICK).replace(b"\x01", b"\x00", 1),
    "version-2": bundle(TICK).replace(b"\x01", b"\x02", 1),
    "platform-0": bundle(TICK, platform=0),
    "platform-2-clock-2": bundle(TICK, platform=2, clock=2),
    "platform-3": bundle(TICK, platform=3),
    "clock-0": bundle(TICK, clock=0),
    "clock-3": bundle(TICK, clock=3),
    "fourth-number-1": b"\x01\x01\x01\x01\x01\x00",
    "no-tracks": b"\x01\x01\x01\x00\x00",
    "nine-tracks": b"\x01\x01\x01\x00\x09" + b"\x00" * 9,
    "one-empty-track": bundle(b""),
    "eight-empty-tracks": bundle(*[b""] * 8),
    "eight-tracks": bundle(*[rec(t, 4, t) + rec(1, 5, t) for t in range(8)]),
    "fault-in-the-eighth": bundle(*[TICK] * 7, TICK + TICK + rec(0, 2)),
    "first-fault-of-two": bundle(TICK + rec(0, 7), rec(0, 6)),
    "lengths-past-the-end": b"\x01\x01\x01\x00\x01\x05" + TICK,
    "lengths-before-the-end": b"\x01\x01\x01\x00\x01\x01" + TICK,
    "lengths-past-2-to-42": b"\x01\x01\x01\x00\x08" + num(2**42 - 1) * 8 + TICK,
    "lengths-cut-off": b"\x01\x01\x01\x00\x02\x02\x80",
    "kind-0": bundle(rec(0, 0)),
    "kind-2": bundle(rec(0, 2)),
    "kind-6": bundle(rec(0, 6)),
    "kind-7": bundle(rec(0, 7)),
    "kind-15": bundle(rec(0, 15)),
    "kind-265": bundle(rec(0, 265)),
    "kinds-all": bundle(rec(0, 1, 0, 0, name=b"a") + rec(1, 3, 0, 5) + rec(1, 4, 0) + rec(1, 5, 0) + rec(1, 8)
                        + rec(1, 9) + rec(1, 10, 3) + rec(1, 11) + rec(1, 12, 2) + rec(1, 13) + rec(1, 14, 9, 250)),
    "name-empty": bundle(rec(0, 1, 0, 0, name=b"")),
    "name-of-17": bundle(rec(0, 1, 0, 0, name=b"a" * 17)),
    "name-bytes": bundle(rec(0, 1, 63, 60000, name=bytes([0, 31, 32, 33, 34, 91, 92, 93, 126, 127, 128, 255]))),
    "name-to-the-last-byte": bundle(rec(0, 1, 0, 0, name=b"abc")),
    "name-cut-at-the-last-byte": bundle(rec(0, 1, 0, 0, name=b"abc")[:-1]),
    "name-cut-by-its-track": bundle(rec(0, 1, 0, 0, name=b"abc")[:-1], TICK),
    "name-missing": bundle(rec(0, 1, 0, 0)[:4] + num(1)),
    "name-past-2-to-41": bundle(rec(0, 1, 0, 0)[:4] + num(2**42 - 1) + b"a"),
    "stamp-at-the-limit": bundle(rec(LIMIT, 8) + rec(0, 8)),
    "stamp-past-the-limit": bundle(rec(LIMIT + 1, 8)),
    "stamp-past-by-the-second": bundle(rec(LIMIT, 8) + rec(1, 8)),
    "stamp-past-before-its-kind": bundle(rec(LIMIT, 8) + rec(1, 2)),
    "stamp-of-the-largest-number": bundle(rec(2**42 - 1, 8)),
    "bytes-60000": bundle(rec(0, 1, 0, 0, name=b"a" * 59985)),
    "bytes-60001": bundle(rec(0, 1, 0, 0, name=b"a" * 59986)),
}

os.makedirs(DATA, exist_ok=True)
for name, data in CASES.items():
    with open(f"{DATA}/{name}.bundle", "wb") as f:
        f.write(data)
    with open(f"{DATA}/{name}.list", "wb") as f:
        f.write(listing(data).encode("latin-1"))
print("\n".join(sorted(CASES)))
