"""The longest of the stored inputs of tests/wrap_samples.py: a run of chance, with a fixed seed."""
import itertools

from outer_run import packet
from pieces import Dice, turned
from tunnel import INNER_MARK, LONGEST, SHORTEST, record
from wrap import TIME_MARK

HEAD_BITS = 32  # of a packet: those that are looked at, and some that are not


def spoiled(dice, content, bits):
    """A byte too few or too many, or the next bit of its first four bytes turned over."""
    way = dice(8)
    if way == 0 and len(content) > SHORTEST:
        return content[:-1]
    if way == 1 and len(content) < LONGEST:
        return content + b"E"
    bit = next(bits) % HEAD_BITS
    return turned(content, bit // 8, 128 >> bit % 8)


def long_run():
    """Records without answers: many packets of one sort, then of another; timestamps between them, and some that may not be carried."""
    dice, records, starts, bits = Dice(8), [], [0], itertools.count()
    while starts[-1] < 140000:
        longest = [40, 100, 600, LONGEST][dice(4)]
        for _ in range(4 + dice(40)):
            content = packet(dice, longest)
            records.append(record(INNER_MARK, content if dice(12) else spoiled(dice, content, bits)))
            records += [TIME_MARK + bytes(dice() for _ in range(4))] if dice(5) == 0 else []
        starts = list(itertools.accumulate(map(len, records), initial=0))
    # every one of those bits was turned over, and the first block of 131,072 bytes ends inside a record
    assert next(bits) >= HEAD_BITS and 131072 not in starts
    return b"".join(records)
