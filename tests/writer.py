#!/usr/bin/env python3
"""Prints what crates/writer_samples must write: the writer of documents 01 and 02 once more, in Python, from the documents alone.

    python3 tests/writer.py > crates/writer_samples/stdout

What is accepted is also given to the desk of tests/log.py, which has to list it again.
"""
import struct
import sys

sys.dont_write_bytecode = True

from log import Desk
from reader import LONGEST

ENOUGH = 592
ROOM = 640


class Malformed(Exception):
    pass


def record(rest, mark, form, *most):
    """The fields of the record that comes first, none above the most it may be, and what is left."""
    size = struct.calcsize(form)
    if len(rest) < size or rest[:2] != mark:
        raise Malformed
    fields = struct.unpack(form, rest[:size])
    if any(field > limit for field, limit in zip(fields, most)):
        raise Malformed
    return fields, rest[size:]


def parsed(listing):
    """transport_stream_id and ensembles: (id, flags, channel version, services), a service being (id, multi, status, SP)."""
    (ts, count), rest = record(listing, b"TS", ">xxHB")
    ensembles = []
    for _ in range(count):
        # the mark of an unknown ensemble, EU, is refused like any other
        (ident, flags, channel, number), rest = record(rest, b"EN", ">xxBBBB", 255, 7, 31)
        services = []
        for _ in range(number):
            (of, *service), rest = record(rest, b"SV", ">xxBHBBB", 255, 65535, 3, 3, 1)
            if of != ident:
                raise Malformed
            services.append(service)
        ensembles.append((ident, flags, channel, services))
    if rest:
        raise Malformed
    return ts, ensembles


def packed(*fields):
    """Fields of (value, width in bits), first to last, as bytes."""
    bits = "".join(format(value, f"0{width}b") for value, width in fields)
    return bytes(int(bits[i:i + 8], 2) for i in range(0, len(bits), 8))


def chunk(ts, ensembles, current):
    """Minor 0, no extensions, reserved bits ones, no stuffing."""
    data = packed((0, 2), (0, 3), (0, 3), (0, 3), (0, 3), (1, 1), (current, 1), (ts, 16), (len(ensembles), 8))
    for ident, flags, channel, services in ensembles:
        slt, gat, eat = flags // 4, flags // 2 % 2, flags % 2
        data += packed((ident, 8), (7, 3), (0, 5), (slt, 1), (gat, 1), (eat, 1), (channel, 5), (len(services), 8))
        for ident, multi, status, sp in services:
            data += packed((ident, 16), (7, 3), (multi, 2), (status, 2), (sp, 1))
    return data


def write(listing, kind, room):
    """The writer's answer: its number and the segments."""
    if room < 592:
        return 1, []
    try:
        ts, ensembles = parsed(listing)
    except Malformed:
        return 13, []
    if 5 + 4 * len(ensembles) + 3 * sum(len(services) for *_, services in ensembles) > 560:
        return 14, []
    current = 1 if kind == "this" else 0
    data = chunk(ts, ensembles, current)
    payloads = [data[i:i + 35].ljust(35, b"\xff") for i in range(0, len(data), 35)]
    last = len(payloads) - 1
    return 0, [packed((0, 2), (3, 2), (0, 2), (current, 1), (0, 1), (number, 4), (last, 4)) + payload
               for number, payload in enumerate(payloads)]


def read_back(segments, listing, kind):
    """A fresh desk lists the segments again, in their order and from the last to the first."""
    for order in segments, segments[::-1]:
        desk = Desk()
        answers = [desk.segment(segment) for segment in order]
        missing = [(0, f"missing {n}") for n in range(len(segments) - 1, 0, -1)]
        assert answers == missing + [(0, f"list {kind} {len(listing)}\n{listing.hex()}")]
        assert desk.listing == {"this": b"", "next": b"", kind: listing}


def show(name, kind, listing, room=ENOUGH):
    number, segments = write(listing, kind, room)
    words = [name, kind, number]
    if not number:
        read_back(segments, listing, kind)
        words += [len(segments), b"".join(segments).hex()]
    print(*words, "kept")


# ---- listings

def header(count):
    return b"TS" + bytes([0xC7, 0x59, count])


def ensemble(ident, services):
    """An ensemble with its services, whose fields go round with different periods."""
    out = b"EN" + bytes([ident, (ident * 3 + 4) % 8, (ident * 7 + 3) % 32, services])
    return out + b"".join(b"SV" + bytes([ident, 127 - ident % 128, i, i % 4, (i % 7 + 3) % 4, i % 3 % 2]) for i in range(services))


def made(*services):
    """Ensembles with these numbers of services."""
    return header(len(services)) + b"".join(ensemble(i, n) for i, n in enumerate(services))


def sized(n):
    """A listing whose chunk has n bytes."""
    more = n % 3
    listing = made((n - 9 - 10 * more) // 3, *[2] * more)
    assert len(chunk(*parsed(listing), 1)) == n
    return listing


def but(listing, *edits):
    """The listing with other bytes at some places."""
    out = bytearray(listing)
    for at, byte in edits:
        out[at] = byte
    return bytes(out)


def unknown(ident, version):
    return b"EU" + bytes([ident, version])


FIRST = bytes.fromhex("5453 0123 01 454E 05 04 03 01 5356 05 0A01 00 03 00")
# as it was before a service carried its ensemble
OLD_FORM = bytes.fromhex("5453 0123 01 454E 05 04 03 01 5356 0A01 00 03 00")
LIKE_MARKS = bytes.fromhex("5453 5356 01 454E 54 05 13 02 5356 54 454E 01 02 00 5356 54 5356 02 01 01")
TWO = header(2) + ensemble(0x2B, 2) + ensemble(0x9D, 1)
MARKS_OF_TWO = 0, 5, 11, 19, 27, 33
UNKNOWN = FIRST[:5] + unknown(5, 1)


# ---- cases

def samples(kind):
    show("first", kind, FIRST)
    show("no ensemble", kind, FIRST[:4] + b"\x00")
    show("empty", kind, b"")
    show("ids like marks", kind, LIKE_MARKS)
    show("two ensembles", kind, TWO)
    show("old form", kind, OLD_FORM)
    show("an unknown ensemble", kind, UNKNOWN)
    show("an unknown ensemble between", kind, header(3) + ensemble(0x2B, 2) + unknown(6, 1) + ensemble(0x9D, 1))


def longest(kind):
    show("183 services", kind, made(183))
    show("184 services", kind, made(184))
    show("three ensembles, 181 services", kind, made(61, 0, 120))
    show("three ensembles, 182 services", kind, made(61, 1, 120))
    show("256 services", kind, made(128, 128))
    show("138 ensembles", kind, made(*[0] * 138))
    show("139 ensembles", kind, made(*[0] * 139))
    show("255 ensembles", kind, made(*[0] * 255))
    show("255 ensembles, last byte 1", kind, made(*[0] * 255)[:-1] + b"\x01")
    show("255 ensembles, cut", kind, made(*[0] * 255)[:-1])
    show("255 ensembles, trailing byte", kind, made(*[0] * 255) + b"\x00")
    show("184 services, last SP 2", kind, made(184)[:-1] + b"\x02")
    show("184 services, last of ensemble 1", kind, but(made(184), (len(made(184)) - 6, 1)))


def lengths(kind):
    for k in range(1, 17):
        for n in 35 * k - 1, 35 * k, 35 * k + 1:
            show(f"chunk of {n}", kind, sized(n))


def outputs(kind):
    for room in 0, 36, 37, 591, 592, 593, ROOM:
        show(f"first, output of {room}", kind, FIRST, room)
        show(f"183 services, output of {room}", kind, made(183), room)
        show(f"184 services, output of {room}", kind, made(184), room)
        show(f"empty, output of {room}", kind, b"", room)


def counts(kind):
    for name, edits in [
        ("no ensemble of 2", [(4, 0)]), ("1 ensemble of 2", [(4, 1)]), ("3 ensembles of 2", [(4, 3)]), ("255 ensembles of 2", [(4, 255)]),
        ("no service of 2", [(10, 0)]), ("1 service of 2", [(10, 1)]), ("3 services of 2", [(10, 3)]), ("255 services of 2", [(10, 255)]),
        ("no service of 1", [(32, 0)]), ("2 services of 1", [(32, 2)]), ("255 services of 1", [(32, 255)]),
        ("1 and 2 services of 2 and 1", [(10, 1), (32, 2)]), ("3 and 0 services of 2 and 1", [(10, 3), (32, 0)]),
    ]:
        show(name, kind, but(TWO, *edits))
    for name, more in [
        ("trailing 0", b"\x00"), ("trailing ff", b"\xff"), ("trailing E", b"E"), ("trailing EN", b"EN"),
        ("trailing ensemble", ensemble(7, 0)), ("trailing service", ensemble(7, 1)[6:]), ("trailing unknown ensemble", unknown(7, 1)),
        ("trailing header", header(0)), ("twice", TWO),
    ]:
        show(name, kind, TWO + more)


def marks(kind):
    for at in MARKS_OF_TWO:
        for mark in b"TS", b"EN", b"SV", b"EU":
            show(f"{mark.decode()} at {at}", kind, but(TWO, (at, mark[0]), (at + 1, mark[1])))


def raised(kind):
    for by in 1, 255:
        for at in range(len(TWO)):
            show(f"byte {at} raised by {by}", kind, but(TWO, (at, (TWO[at] + by) % 256)))


def fields(kind):
    for name, most, places in [
        ("flags", 7, (8, 30)), ("channel version", 31, (9, 31)), ("multi", 3, (16, 38)), ("status", 3, (17, 39)), ("SP", 1, (18, 40)),
    ]:
        for at in places:
            for value in *range(most + 2), 255:
                show(f"{name} at {at} {value}", kind, but(TWO, (at, value)))


def owners(kind):
    # 84 and 98 are the first bytes of the services' ids
    for at in 13, 21, 35:
        for value in 0x2B, 0x9D, 84, 98, 0, 255:
            show(f"ensemble at {at} {value}", kind, but(TWO, (at, value)))
    for at in 7, 29:
        for value in 0x2B, 0x9D, 0, 255:
            show(f"id at {at} {value}", kind, but(TWO, (at, value)))
    # with 0x9D there are two ensembles of one id
    for value in 0x9D, 0, 255:
        show(f"first renamed {value}", kind, but(TWO, (7, value), (13, value), (21, value)))


def cuts(kind):
    for n in range(len(TWO) + 1):
        show(f"cut to {n}", kind, TWO[:n])


def main():
    number, segments = write(FIRST, "this", ENOUGH)
    assert (number, b"".join(segments)) == (0, bytes.fromhex("3200 0003 0123 01 05E083 01 0A01E6" + 23 * "FF"))
    assert b"".join(TWO[at:at + 2] for at in MARKS_OF_TWO) == b"TSENSVSVENSV" and len(TWO) == 41
    assert len(made(183)) == LONGEST
    for kind in "this", "next":
        for cases in samples, longest, lengths, outputs, counts, marks, raised, fields, owners, cuts:
            cases(kind)


if __name__ == "__main__":
    main()
