"""What the stored logs of tests/log_samples.py are made of: lists, their listings, chunks, SG records, and steps, from documents 01 and 02.

A list is its transport_stream_id and its ensembles: (id, flags, channel version, services), a service being (id, multi, status, SP).
An unknown ensemble has its version, which is not 0, as a fifth; its flags, channel version and services are sent and not listed.
A step is a record and the answer to it.
"""
import random
import struct


class Dice:
    """Chance with a fixed seed, by random() alone, which is the same in every edition of Python."""

    def __init__(self, seed):
        self.random = random.Random(seed).random

    def __call__(self, n=256):
        return int(self.random() * n)

    def shuffled(self, things):
        return sorted(things, key=lambda _: self.random())


def ones():
    return 255


def zeros():
    return 0


def plain(services, ts=0x0123):
    """A list of one ensemble; with one service it's the list of document 01's samples."""
    return ts, [(5, 4, 3, [(0x0A01 + i, i % 4, (i // 4 + 3) % 4, i // 16 % 2) for i in range(services)])]


def chance(dice, ensembles, services, unknown=False):
    """A list with so many ensembles and at most so many services in each; if asked for, about half of the ensembles are unknown."""
    def service():
        return dice(65536), dice(4), dice(4), dice(2)

    def ensemble():
        known = dice(), dice(8), dice(32), [service() for _ in range(dice(services + 1))]
        return (*known, 1 + dice(31)) if unknown and dice(2) else known
    return dice(65536), [ensemble() for _ in range(ensembles)]


def listing(what):
    ts, ensembles = what
    out = struct.pack(">2sHB", b"TS", ts, len(ensembles))
    for ident, flags, channel, services, *version in ensembles:
        if version:
            out += struct.pack(">2sBB", b"EU", ident, *version)
            continue
        out += struct.pack(">2sBBBB", b"EN", ident, flags, channel, len(services))
        for service in services:
            out += struct.pack(">2sBHBBB", b"SV", ident, *service)
    return out


def chunk(what, kind, minor=0, h=0, e=0, s=0, noise=ones):
    """The chunk without its stuffing; reserved bits and extension bytes are noise."""
    def extension(n):
        return bytes(noise() for _ in range(n))
    ts, ensembles = what
    out = struct.pack(">HH", minor << 11 | h << 8 | e << 5 | s << 2 | noise() & 2 | (kind == "this"), ts)
    out += extension(h) + bytes([len(ensembles)])
    for ident, flags, channel, services, *version in ensembles:
        out += bytes([ident, noise() & 0xE0 | sum(version), flags << 5 | channel]) + extension(e) + bytes([len(services)])
        for ident, multi, status, sp in services:
            out += struct.pack(">HB", ident, noise() & 0xE0 | multi << 3 | status << 1 | sp) + extension(s)
    return out


def cut(data, kind, noise=ones):
    """The SG records of a chunk, in order; stuffing and the headers' reserved bits are noise."""
    data += bytes(noise() for _ in range(-len(data) % 35))
    last = len(data) // 35 - 1
    heads = [(noise() & 3) << 12 | (kind == "this") << 9 | number << 4 | last for number in range(last + 1)]
    return [struct.pack(">2sH35s", b"SG", head, data[35 * i:35 * i + 35]) for i, head in enumerate(heads)]


def turned(data, at, mask):
    """The bytes with the mask's bits of the one at a place turned over."""
    return bytes(byte ^ mask if i == at else byte for i, byte in enumerate(data))


def bent(record, head, tail=0):
    """An SG record with bits of its header and of its last payload byte turned over."""
    return turned(turned(turned(record, 2, head >> 8), 3, head & 255), 38, tail)


def no(number, *records):
    """Refused; of number 9 with its offset, as in "9 at 33"."""
    return [(record, f"SG {number}") for record in records]


def miss(count, *records):
    return [(record, f"SG 0 missing {count}") for record in records]


def gives(what, kind, record):
    return [(record, f"SG 0 list {kind} {len(listing(what))}\n{listing(what).hex()}")]


def wait(*records):
    """All pieces but the last to come, each once, to an empty slot."""
    return [step for i, record in enumerate(records) for step in miss(len(records) - i, record)]


def sent(what, kind, order=list, noise=ones, **dress):
    """The whole list, each piece once, to an empty slot."""
    *before, last = order(cut(chunk(what, kind, noise=noise, **dress), kind, noise))
    return wait(*before) + gives(what, kind, last)


def fr(what):
    return [(b"FR", f"FR {len(listing(what))}\n{listing(what).hex()}")]
