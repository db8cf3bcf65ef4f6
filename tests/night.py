"""The longest of the stored logs of tests/log_samples.py: a night of chance, with a fixed seed."""
from pieces import Dice, bent, chance, chunk, cut, turned


def long_night():
    """Steps without answers. Of each kind's present chunk some pieces wait, and those past may come again; some are damaged."""
    dice, steps, waiting, past, bits = Dice(3), [], {}, {}, set()

    def fresh(kind):
        """A new chunk of this kind: seldom a long one, now and then one with another kind, major, version or count."""
        h, e, what = dice(8), dice(8), chance(dice, 1 + dice(3), 7) if dice(12) else chance(dice, dice(7), 36)
        data = chunk(what, kind, dice(8), h, e, dice(3), dice)[:560]
        if dice(5) == 0:
            data = turned(data, *[(1, 1), (0, 0x40), (6 + h, 1), (4 + h, 0x80), (8 + h + e, 0x80)][dice(5)])
        waiting[kind], past[kind] = dice.shuffled(cut(data, kind, dice)), []

    while len(steps) < 2500:
        if not waiting or dice(100 if waiting["this"] or waiting["next"] else 5) == 0:
            steps.append((b"FR" if dice(2) else b"GA", None))
            fresh("this"), fresh("next")
        kind = "this" if dice(2) else "next"
        if dice(90) == 0:
            fresh(kind)
        if waiting[kind] and dice(4):
            past[kind].append(waiting[kind].pop())
        if past[kind]:
            head = 1 << dice(16) if dice(15) == 0 else 0
            steps.append((bent(past[kind][-1 - dice(2) * dice(len(past[kind]))], head, dice(60) == 0), None))
            bits.add(head)
    # every header bit was turned over, and blocks of 39 and of 65,536 bytes end inside records, those of 39 at every place
    starts = {sum(len(record) for record, _ in steps[:i]) for i in range(len(steps))}
    assert len(bits) == 17 and 65536 < max(starts) and 65536 not in starts and {at % 39 for at in starts} == set(range(39))
    return steps
