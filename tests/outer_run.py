"""The longest of the stored inputs of tests/unwrap_samples.py: a run of chance, with a fixed seed."""
import itertools
import struct

from pieces import Dice, turned
from tunnel import HEADER, LONGEST, OUTER, SHORTEST, send

HEADER_BITS = 8 * HEADER


def packet(dice, longest):
    """Short or not; now and then one that is full of bytes that look like a packet's start."""
    size = [SHORTEST, SHORTEST + dice(12), SHORTEST + dice(longest - SHORTEST + 1), longest][dice(4)]
    inside = bytes(dice() for _ in range(size)) if dice(5) else 375 * struct.pack(">BBH", 0x45, 0, SHORTEST + dice(20))
    return struct.pack(">BBH", 0x40 + dice(16), dice(), size) + inside[4:size]


def cuts(dice, longest, size):
    """The payloads' sizes: all but the last are the same, or each is another."""
    fixed = dice(2)
    while size > 0:
        cut = min(size, longest if fixed else dice(longest + 1))
        yield cut
        size -= cut


def damaged(dice, outer, bits):
    """Cut short, or with bytes behind it, or a bit of it turned over: the header's next one, one near a marked start, or any."""
    way = dice(10)
    if way == 0:
        return outer[:dice(len(outer))]
    if way == 1:
        return outer + bytes(dice() for _ in range(1 + dice(99)))
    if way < 6:
        bit = next(bits) % HEADER_BITS
        return turned(outer, bit // 8, 128 >> bit % 8)
    start = HEADER + int.from_bytes(outer[10:12], "big")
    return turned(outer, start + dice(4) if way < 9 else dice(len(outer)), 1 << dice(8))


def changed(dice, outers, bits):
    """What comes of a stream: some outer packets are left out, come twice, change places or are damaged."""
    came = []
    for outer in outers:
        fate = dice(40)
        came += [] if fate == 0 else [outer, outer] if fate == 1 else [damaged(dice, outer, bits)] if fate < 6 else [outer]
        if fate == 6:
            came[-2:] = came[:-3:-1]
    return came


def long_run():
    """Outer packets without answers. A stream goes on with the number of the one before, or with any, or begins shortly before the wrap."""
    dice, outers, number, bits = Dice(5), [], 65500, itertools.count()
    while sum(map(len, outers)) < 300000:
        cut, longest = [(3, 40), (30, 100), (188, 600), (1316, LONGEST), (OUTER - HEADER, LONGEST)][dice(5)]
        packets = [packet(dice, longest) for _ in range(4 + dice(20))]
        sizes = cuts(dice, cut, sum(map(len, packets)))
        sent = send(packets, sizes, number, timestamp=dice(1 << 32), others=dice(65536), idle=dice(65536))
        outers += changed(dice, sent, bits)
        number += [len(sent), dice(65536), -number % 65536 - dice(10)][dice(3)]
    # every header bit was turned over
    assert next(bits) >= HEADER_BITS
    return outers
