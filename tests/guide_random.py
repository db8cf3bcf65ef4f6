"""Sections by chance, with a fixed seed: the longest of the stored inputs of tests/guide_samples.py."""
import itertools

from guide import LOOPS, SECTION_MARK, SHORTEST
from guide_pieces import descriptor, mended, section
from pieces import Dice, turned
from tunnel import record

HEADER_BITS, EVERY = 8 * SHORTEST, 7    # bits up to the loops' first count and with it; of so many sections, one has one turned over
COUNT = 5000                            # sections in the long run


def sound(dice, **fields):
    """A section in order, with any names, descriptors and reserved bits."""
    def some(most):
        return bytes(dice() for _ in range(dice(most + 1)))

    def descriptors():
        return [descriptor(dice(), some(9)) for _ in range([0, 0, 1, 3][dice(4)])]
    providers = [(some([0, 9, 9, 40][dice(4)]), *descriptors()) for _ in range(dice(6))]
    return section(providers, additional=descriptors(), syntax=dice(2), private=dice(2), two=dice(4), eight=dice(), pair=dice(4), **fields)


def tables(dice):
    """Without end: a table's sections in any order, some of them twice or not at all; then those of another, or of the same once more."""
    version, last = 0, 2
    while True:
        version, last = dice(32) if dice(3) else version, [0, 1, 1, 2, 2, 3, 5, dice()][dice(8)] if dice(3) else last
        numbers = [*range(last + 1), *(dice(last + 1) for _ in range(dice(5)))]
        for number in dice.shuffled(numbers)[:min(12, len(numbers) - dice(2))]:
            yield sound(dice, number=number, last=last, version=version, current=int(dice(20) > 0))


def damaged(dice, data):
    """Cut short, or with bytes behind it, or a bit of the loops turned over, near their start or anywhere; the length is mostly mended."""
    way = dice(6)
    if way < 2:
        data = data[:dice(len(data))]
    elif way == 2:
        data += bytes(dice() for _ in range(1 + dice(20)))
    else:
        data = turned(data, LOOPS + dice(2 if way == 3 else len(data) - LOOPS), 1 << dice(8))
    return mended(data) if dice(5) else data


def sections(seed, count):
    """So many sections: most of them are in order, and every bit of the header is turned over in its turn."""
    dice = Dice(seed)
    for i, data in enumerate(itertools.islice(tables(dice), count)):
        bit = i // EVERY % HEADER_BITS
        yield turned(data, bit // 8, 128 >> bit % 8) if i % EVERY == 0 else data if dice(7) else damaged(dice, data)


def long_run():
    """Records without answers."""
    records = [record(SECTION_MARK, data) for data in sections(6, COUNT)]
    # every one of those bits was turned over, and the first block of 65,539 or of 131,072 bytes ends inside a record
    assert COUNT >= EVERY * HEADER_BITS and not {65539, 131072} & set(itertools.accumulate(map(len, records)))
    return b"".join(records)
