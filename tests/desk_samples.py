#!/usr/bin/env python3
"""Prints what crates/desk_samples must write: the desk of documents 01 and 02, in Python.

    python3 tests/desk_samples.py > crates/desk_samples/stdout

Well formed desks are those of tests/log.py. What a desk that is not well formed answers and shows, and a short buffer, is written out here.
"""
import copy
import sys

sys.dont_write_bytecode = True

from log import Desk
from reader import LONGEST, ROOM

SHORT = LONGEST - 1
BEFORE = b"\xa5"


class Bench(Desk):
    """A desk with two buffers, which change roles at each frame. A desk is good when it is well formed."""

    def __init__(self, shown=0, coming=0, good=True):
        super().__init__()
        self.lent = [bytearray(BEFORE * ROOM), bytearray(BEFORE * ROOM)]
        self.swapped, self.good = shown + coming > 0 or not good, good
        self.listing = {"this": BEFORE * shown, "next": BEFORE * coming}

    def line(self, text, empty=False):
        """A line on the desk as it stands; all is shown empty where that is said."""
        shows = [f"{kind} {not empty and self.listing[kind].hex() or '-'}" for kind in ("this", "next")]
        changed = [len(lent.rstrip(BEFORE)) for lent in self.lent]
        print("; ".join([text, *shows, f"changed {changed[0]} {changed[1]}"]))
        return self

    def now(self, name):
        return self.line(name, not self.good)

    def seg(self, name, segment, m=ROOM, n=ROOM):
        if not self.good:
            return self.line(f"{name}: 12", True)
        if m < LONGEST or n < LONGEST:
            return self.line(f"{name}: 1", True)
        number, text = self.segment(segment)
        text = f"{number} {text}".rstrip() if number else text.split("\n")[0]
        if text.startswith("list"):
            kind = text.split()[1]
            listing = self.listing[kind]
            self.lent[self.swapped ^ (kind == "next")][:len(listing)] = listing
        return self.line(f"{name}: {text}")

    def fresh(self):
        self.swapped, self.good = False, True
        self.listing = {"this": b"", "next": b""}
        self.gathering()

    def ga(self):
        if self.good:
            self.gathering()
        else:
            self.fresh()
        return self.line("new gathering")

    def fr(self):
        if self.good:
            self.frame()
            self.swapped = not self.swapped
        else:
            self.fresh()
        return self.line("new frame")


def made(head, payload):
    return bytes.fromhex(head) + payload + b"\xff" * (35 - len(payload))


NEXT = bytes.fromhex("0002 0123 01 05E083 01 0A01E6")
THIS = bytes.fromhex("0003 0123 01 05E083 01 0A01E6")
TWELVE = bytes.fromhex("0003 0123 01 05E083 0C") + b"".join(bytes([0x10, i, 0xE0 + i]) for i in range(12))
HEAD, TAIL = TWELVE[:35], TWELVE[35:]
SAMPLE = made("3000", NEXT)


def headers(bench):
    for head in "72 00", "33 00", "36 00", "32 10", "b0 00", "38 00", "30 fe", "73 00", "76 00", "37 00", "36 10":
        bench.seg(head, made(head, NEXT))
    return bench


def tried(name, bench):
    """The desk, a segment for it, then once a new gathering and once a new frame, with the segment again."""
    segment = made("3200", THIS)
    bench = bench.now(name).seg("32 00", segment)
    copy.deepcopy(bench).ga().seg("32 00", segment)
    bench.fr().seg("32 00", segment)


def slotted(kind, last, held, spoiled):
    """A good desk with one slot written out."""
    bench = Bench(18, 5)
    slot = bench.slot[kind]
    slot.spoiled, slot.last, slot.held = spoiled, last, held
    return bench


def first_calls():
    Bench().now("fresh").seg("sample", SAMPLE).fr().fr()
    headers(headers(Bench()).seg("sample", SAMPLE)).seg("repeat", SAMPLE)
    bench = Bench()
    for n in 0, 1, 36, 38, 37, 38:
        bench.seg(f"{n} byte{'s' * (n != 1)}", (SAMPLE + b"\xff")[:n])
    bench = Bench()
    for m, n in (SHORT, LONGEST), (LONGEST, SHORT), (0, LONGEST), (LONGEST, 0), (0, 0), (LONGEST, LONGEST):
        bench.seg(f"buffers of {m}, {n}", SAMPLE, m, n)
    for m, n in (SHORT, LONGEST), (LONGEST, SHORT), (ROOM, ROOM):
        bench.seg(f"then of {m}, {n}", SAMPLE, m, n)
    for m, n in (ROOM, ROOM), (LONGEST, ROOM):
        Bench().seg(f"buffers of {m}, {n}", SAMPLE, m, n)
    bad, typed = Bench(good=False), made("7200", THIS)
    bad.seg("bad desk, short buffers", typed, SHORT, SHORT).seg("bad desk, 36 bytes", typed[:36])
    bench = Bench().seg("short buffers, 36 bytes", typed[:36], ROOM, SHORT)
    bench.seg("short buffers, 72 00", typed, SHORT, ROOM).seg("36 bytes, 72 00", typed[:36])


def written_out():
    for shown, coming in (5, LONGEST), (LONGEST, 0):
        tried(f"listings of {shown}, {coming}", Bench(shown, coming))
    for name, last, held, spoiled in [
        ("holds 15 of 15", 15, {15: b"\x01" + bytes(34)}, False), ("holds 0 of 1", 1, {0: bytes(34) + b"\x01"}, False),
        ("spoiled", None, {}, True),
    ]:
        for kind in "this", "next":
            tried(name, slotted(kind, last, dict(held), spoiled))
    for lengths in "3, 5", "5, 3", "4, 0", "0, 1", f"{LONGEST + 1}, 5", f"5, {LONGEST + 1}":
        tried(f"listings of {lengths}", Bench(good=False))
    for name in (
        "last 16", "last 255", "holds 2 above 1", "holds 15 above 14", "empty, last 1", "empty, a byte at 0", "empty, a byte at 559",
        "holds 0, a byte at 35", "holds 1, a byte at 34", "spoiled, holds 0", "spoiled, last 1", "spoiled, a byte at 300",
    ):
        for _ in "this", "next":
            tried(name, Bench(good=False))


def gathered():
    one, two = made("3201", HEAD), made("3211", TAIL)
    bench = Bench().seg("32 01", one).seg("repeat", one).seg("repeat, reserved 0", made("0201", HEAD)).seg("32 11", two)
    bench.seg("repeat", two).seg("clash", made("3211", HEAD)).seg("32 11", two).seg("number above last", made("3210", TAIL))
    bench.seg("kind next", SAMPLE).ga().seg("32 11", two).seg("32 01", one).fr().seg("kind this", made("3200", THIS)).fr()
    bench = Bench().seg("32 01", one).seg("other last number", made("3212", TAIL)).seg("32 01", one).fr()
    bench.seg("32 01", one).seg("other payload", made("3201", TAIL)).ga().seg("32 01", one)
    bench = Bench().seg("32 00", made("3200", THIS))
    for name, text in [
        ("kind differs", NEXT.hex()), ("early end", "0003012301 05E083FF"), ("unknown ensemble", "0003012301 05E18300"),
        ("major", "4003012300"), ("early end, kind differs", "0002012301 05E083FF"),
        ("unknown ensemble, kind differs", "0002012301 05E18300"), ("unknown ensemble cut, kind differs", "0002012301 05E1"),
        ("major, kind differs", "C002012300"),
    ]:
        segment = made("3200", bytes.fromhex(text))
        bench.ga().seg(name, segment).seg("repeat", segment).seg("kind next", SAMPLE).seg("clash", made("3200", THIS))
    bench.ga()


if __name__ == "__main__":
    first_calls()
    written_out()
    gathered()
