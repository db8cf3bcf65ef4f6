"""Records by chance, with a fixed seed: the longest of the stored inputs of tests/explain_samples.py."""
import itertools

from explain import CHUNK_MARK
from pieces import Dice, chance, chunk, cut, turned
from tunnel import record

COUNT = 2400            # records in the long run
HEADER_BITS = 16        # of a segment
OTHER = {"this": "next", "next": "this"}


def sound(dice, kind):
    """A chunk in order, with any extensions and reserved bits, and at times some stuffing."""
    what = chance(dice, dice(7), 5, True)
    return chunk(what, kind, dice(8), dice(8), dice(8), dice(8), dice) + bytes(dice() for _ in range(dice(40) if dice(4) == 0 else 0))


def damaged(dice, data):
    """Cut short, anywhere, in the first bytes or where a segment ends; a bit turned over, in the first bytes or anywhere; or longer."""
    way = dice(7)
    if way < 3:
        return data[:[dice(len(data)), dice(13), len(data) // 35 * 35][way]]
    if way == 6:
        return data + bytes(dice() for _ in range(400 + dice(200)))
    return turned(data, dice(2 if way == 3 else len(data)), 1 << dice(8))


def any_chunk(dice, kind):
    """About half of them are in order."""
    return damaged(dice, sound(dice, kind)) if dice(2) else sound(dice, kind)


def pieces(dice):
    """Those of a chunk of each kind in any order, some of them twice or not at all; some chunks are of the other kind."""
    found = []
    for kind in "this", "next":
        data = any_chunk(dice, kind if dice(12) else OTHER[kind])
        found += cut(data[:560] or b"\0", kind, dice)
    found += [found[dice(len(found))] for _ in range(dice(4))]
    return dice.shuffled(found)[dice(3) // 2:]


def gatherings(dice):
    """Without end: a frame or a gathering begins, and pieces come, some of them damaged, with chunks between them."""
    bits = itertools.cycle(range(HEADER_BITS))
    while True:
        yield b"FR" if dice(2) else b"GA"
        for piece in pieces(dice):
            if dice(10) == 0:
                bit = next(bits)
                yield turned(piece, 2 + bit // 8, 128 >> bit % 8)
            yield turned(piece, 4 + dice(35), 1 << dice(8)) if dice(30) == 0 else piece
            if dice(2):
                yield record(CHUNK_MARK, any_chunk(dice, "this" if dice(2) else "next"))


def long_run():
    """Records without answers."""
    records = list(itertools.islice(gatherings(Dice(8)), COUNT))
    # the first block of 65,539 or of 131,072 bytes ends inside a record
    starts = set(itertools.accumulate(map(len, records)))
    assert 131072 < max(starts) and not {65539, 131072} & starts
    return b"".join(records)
