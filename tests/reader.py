#!/usr/bin/env python3
"""Prints what crates/reader_samples must write: the reader of documents 01 and 02 once more, in Python, from the documents alone.

    python3 tests/reader.py > crates/reader_samples/stdout
"""
import struct

LONGEST = 1475  # the longest listing
ROOM = 1500     # of a buffer that has room for more


def read(chunk, room):
    """The reader's answer: (number, kind, minor, listing, at), at being for number 9 where the first thing that doesn't fit begins."""
    def refused(number, at=0):
        return number, None, 0, b"", at
    if room < LONGEST:
        return refused(1)
    if len(chunk) > 560:
        return refused(8)
    if len(chunk) < 2:
        return refused(9)
    head = int.from_bytes(chunk[:2], "big")
    if head >> 14:
        return refused(5)
    minor, h, e, s, current = head >> 11 & 7, head >> 8 & 7, head >> 5 & 7, head >> 2 & 7, head & 1
    if len(chunk) < 5 + h:
        return refused(9)
    out, at = b"TS" + chunk[2:4] + chunk[4 + h:5 + h], 5 + h
    for _ in range(chunk[4 + h]):
        fields = chunk[at:at + 4 + e]
        if len(fields) < 4 + e:
            return refused(9, at)
        ident, version, bits, count = fields[0], fields[1] & 31, fields[2], fields[3 + e]
        out += b"EU" + bytes([ident, version]) if version else b"EN" + bytes([ident, bits >> 5, bits & 31, count])
        at += 4 + e
        for _ in range(count):
            service = chunk[at:at + 3 + s]
            if len(service) < 3 + s:
                return refused(9, at)
            service_id, bits = struct.unpack(">HB", service[:3])
            # those of an unknown ensemble are walked over
            if not version:
                out += b"SV" + struct.pack(">BHBBB", ident, service_id, bits >> 3 & 3, bits >> 1 & 3, bits & 1)
            at += 3 + s
    return 0, "this" if current else "next", minor, out, 0


def show(name, chunk, room=LONGEST):
    number, kind, minor, listing, at = read(chunk, room)
    words = [name, str(number)]
    if number == 9:
        words += ["at", str(at)]
    if not number:
        words += [kind, str(minor), str(len(listing)), listing.hex()]
    print(*words, "kept")


def header(h, e, s, count):
    return bytes([7 << 3 | h, e << 5 | s << 2 | 3, 0x01, 0x23]) + b"\xa1" * h + bytes([count])


def ensemble(ident, e, s, services):
    body = b"".join(bytes([0x10, i, 0xE0 + i % 32]) + b"\xc3" * s for i in range(services))
    return bytes([ident, 0xE0, 0x5F]) + b"\xb2" * e + bytes([services]) + body


def trial(ident, e, s, services):
    """An unknown ensemble: one like `ensemble`, of a version from 1 to 31."""
    known = ensemble(ident, e, s, services)
    return known[:1] + bytes([0xE1 + ident % 31]) + known[2:]


FIRST = bytes.fromhex("0003 0123 01 05E083 01 0A01E6")


def main():
    for name, text in [
        ("first", FIRST.hex()), ("minor 1, h 1, e 2", "09430123AA01 05E083BBCC01 0A01E6"), ("no ensemble", "0003012300"),
        ("no ensemble, cut", "00030123"), ("empty", ""), ("one byte of major 1", "40"), ("two bytes of major 1", "4003"),
        ("an ensemble short", "0003012301"), ("version 1", "0003012301 05E18301 0A01E6"), ("first, cut", FIRST[:-1].hex()),
        ("kind next", "0002012301 05E08301 0A01E6"), ("reserved bits zeros", "0001012301 05008301 0A0106"),
        ("all flags, channel 31, multi 3, SP", "0003FFFE01 FFE0FF01 1234FF"), ("major 3, header cut", "C70301"),
        ("header cut in its extension", "07030123 000000000000"), ("header and its extension", "07030123 0000000000000000"),
        ("version 1, no room for its services", "0003012301 05E183FF"), ("version 1, fields cut", "0003012301 05E183"),
        ("version 1, services cut", "0003012301 05E18301 0A01"), ("version 1, reserved bits zeros", "0003012301 05018300"),
        ("second ensemble of version 31", "0003012302 05E08300 06FF0000"),
        ("last ensemble of version 2, services cut", "0003012302 05E08300 06E20002 0B01E6 0B02"),
        ("a trial ensemble between two", "01470123AA03 05E083BBCC01 0A01E6DD 06E1FFBBCC02 0B01E6DD 0B02E6DD 07E003BBCC00"),
        ("all ensembles unknown", "0003012303 05E18300 06E20001 0B01E6 07FF0000"),
        ("second ensemble cut", "0003012302 05E08300 06E000"), ("255 ensembles", "00030123FF 05E08300 06E00000"),
        ("header cut after its flags", "0003"), ("header cut before its count", "0703012300000000000000"),
        ("h 3, ensemble's fields cut", "030301230000000105E0"), ("h 3, e 2, first service cut", "034301230000000105E083000002 0A"),
        ("h 2, s 1, a middle service cut", "020701230000 0105E08303 0A01E6DD 0A02E6"),
        ("s 7, the last service cut in its extension", "001F01230105E08302 0A01E600000000000000 0A02E6000000000000"),
        ("second of version 9, its second service cut", "0003012302 05E08301 0A01E6 06E98302 0B01E6 0B02"),
        ("services of three ensembles", "0003012303 05E08301 0A01E6 06E08302 0B01E6 0B02E6 07E08301 0C01E6"),
    ]:
        show(name, bytes.fromhex(text))
    one = header(0, 0, 0, 1) + ensemble(5, 0, 0, 183)
    assert len(one) == 558 and len(read(one, LONGEST)[3]) == LONGEST
    show("183 services", one)
    show("183 services, cut", one[:-1])
    more = header(0, 0, 0, 1) + ensemble(5, 0, 0, 184)
    show("184 services", more)
    show("184 services in 560 bytes", more[:-1])
    three = header(0, 0, 0, 3) + ensemble(1, 0, 0, 61) + ensemble(2, 0, 0, 0) + ensemble(3, 0, 0, 120)
    assert len(three) == 560
    show("three ensembles, 181 services", three)
    show("three ensembles, 561 bytes", three + b"\xff")
    unknown = header(0, 0, 0, 138) + b"".join(trial(i, 0, 0, 0) for i in range(138))
    assert len(unknown) == 557
    show("138 unknown ensembles", unknown)
    show("138 unknown ensembles, cut", unknown[:-1])
    small = header(7, 7, 7, 1) + ensemble(5, 7, 7, 1)
    show("extensions 7", small)
    show("extensions 7, cut", small[:-1])
    seven = b"".join(ensemble(i, 7, 7, 6) for i in range(1, 8))
    full = header(7, 7, 7, 8) + ensemble(0, 7, 7, 4) + seven
    assert len(full) == 560
    show("extensions 7, 560 bytes", full)
    show("extensions 7, 559 bytes", full[:-1])
    show("extensions 7, the first unknown", header(7, 7, 7, 8) + trial(0, 7, 7, 4) + seven)
    for n in range(550):
        show("stuffing", FIRST + bytes([n % 256]) * n)
    for room in (0, LONGEST - 1, LONGEST, ROOM):
        show(f"buffer of {room}", FIRST, room)
    show(f"buffer of {LONGEST - 1}, chunk of 561", FIRST + bytes(549), LONGEST - 1)


if __name__ == "__main__":
    main()
