#!/usr/bin/env python3
"""Makes the stored logs and what the programs must write for them, by tests/log.py, and prints how often each answer occurs.

    python3 tests/log_samples.py

It writes crates/log_samples/data, crates/log_samples/args, crates/log_samples/stdout, crates/log_program/stdin and crates/log_program/stdout. A log is
made of steps, each a record with the answer that documents 01 and 02 demand, said here without the desk of tests/log.py; both must agree.
Only long_night has no such answers.
"""
import collections
import itertools
import pathlib
import re
import sys

sys.dont_write_bytecode = True

from log import transcript
from night import long_night
from pieces import Dice, bent, chance, chunk, cut, fr, gives, listing, miss, no, ones, plain, sent, turned, wait, zeros

CRATES = pathlib.Path(__file__).resolve().parent.parent / "crates"
SAMPLE = bytes.fromhex("5347 3000 0002012301 05E08301 0A01E6" + 23 * "FF" + "4652 4652")
SAMPLE_PRINTS = """SG 0 list next 19
5453012301454e050403015356050a01000300
FR 19
5453012301454e050403015356050a01000300
FR none
END 0
"""
SHAPES = ["GA", "FR none", "FR n", "SG 0 missing n", "SG 0 missing 0", "SG 0 list this n", "SG 0 list next n",
          "SG 3", "SG 4", "SG 5", "SG 6", "SG 7", "SG 9 at n", "SG 10", "END 0", "END 15"]
GA, NONE = [(b"GA", "GA")], [(b"FR", "FR none")]
# A and B bring TWO for this frame, C and D for the next; ONLY and SPARE bring ONE, in a single piece
ONE, TWO, LONG = plain(1), plain(10), plain(183, 0xFEDC)
(A, B), (C, D) = (cut(chunk(TWO, kind), kind) for kind in ("this", "next"))
(ONLY,), (SPARE,) = (cut(chunk(ONE, kind), kind) for kind in ("this", "next"))
# two ensembles, a chunk of 37 bytes: 0A01 could be a weather channel, 0A02 a tide channel, which is in both; 4652 is the letters FR
NOTICES = (0x0123, [(5, 4, 3, [(0x0A01, 0, 2, 0), (0x0A02, 1, 2, 0), (0x0A03, 0, 3, 0)]),
                    (6, 3, 17, [(0x0A02, 2, 2, 0), (0x0A04, 0, 2, 1), (0x0A05, 0, 0, 0), (0x4652, 0, 2, 0), (0x4653, 0, 2, 0)])])


def worked():
    # docs/LOG.md takes it apart: the signal is lost after a piece of the list for this frame; the list for the next one comes whole
    early, _ = cut(chunk(NOTICES, "this"), "this")
    first, second = cut(chunk(NOTICES, "next"), "next")
    steps = NONE + miss(1, early) + GA + miss(1, first, first) + no(4, turned(bent(second, 0x0100), 5, 0x10))
    return steps + gives(NOTICES, "next", second) + fr(NOTICES) + NONE


def refusals():
    # by the header, which in B has number 1 and last 1: nothing changes
    damaged = []
    for number, head in [(3, 0x4000), (3, 0x8000), (3, 0xC000), (3, 0x4D01), (4, 0x0100), (4, 0x0D01),
                         (5, 0x0400), (5, 0x0800), (5, 0x0C00), (5, 0x0C01), (6, 0x0001), (6, 0x00E0)]:
        damaged += no(number, bent(B, head))
    steps = damaged + miss(1, A) + damaged + gives(TWO, "this", B) + damaged + miss(0, A, B)
    # 7, a place held with other payload, the slot complete or not: spoiled until GA, and the other kind isn't
    for before in miss(1, A), sent(TWO, "this"):
        steps += GA + before + no(7, bent(A, 0, 1), A, B, ONLY) + damaged + sent(TWO, "next") + GA + sent(TWO, "this")
    steps += fr(TWO)
    # 7, another last number, the place held or not: spoiled until FR
    for other in ONLY, bent(A, 0x0002), bent(B, 0x000E):
        steps += miss(1, A) + no(7, other, B, A, other) + NONE + sent(TWO, "this") + GA
    # by a completed chunk: it's held and complete, so repeats lack 0. Of either kind, since 10 comes last. Stuffing is FF
    for number, text in [(5, "4003012300"), (5, "8002"), (5, "C003" + 33 * "00"), ("9 at 33", "000301230105E083FF"),
                         ("9 at 33", "00030123FF" + 30 * "00"), ("9 at 33", "00030123010501"), ("9 at 33", "00030123FF"),
                         ("9 at 34", "000201230205E0830006F0"), (10, None)]:
        for kind, differs in ("this", "0002012300"), ("next", "0003012300"):
            record, = cut(bytes.fromhex(text or differs), kind)
            steps += GA + no(number, record) + miss(0, record, bent(record, 0x1000)) + no(7, bent(record, 0, 1), record)
    # the same in two pieces, and the list from before stays; with 1 for the last ensemble's version the chunk is listed
    good, trial = chunk((1, plain(8)[1] + [(6, 0, 0, [])]), "next"), (1, plain(8)[1] + [(6, 0, 0, [], 1)])
    for number, at, mask in (5, 0, 0x40), (None, 34, 1), ("9 at 70", 36, 255), (10, 1, 1):
        first, second = cut(turned(good, at, mask), "next")
        steps += GA + sent(ONE, "next") + GA + miss(1, second, second)
        steps += no(number, first) if number else gives(trial, "next", first)
        steps += miss(0, second, first) + fr(ONE if number else trial) + NONE
    return steps + miss(1, A) + [(b"SA" + B[2:] + B + b"FRGA", "END 15")]


def slips():
    # a next list has its turn at the boundary and for one frame; pieces from before the boundary are forgotten; a this list isn't carried
    steps = sent(TWO, "this") + sent(ONE, "next") + miss(0, A) + fr(ONE) + miss(1, C) + NONE + miss(1, D) + gives(TWO, "next", C)
    steps += sent(ONE, "this") + fr(TWO) + miss(1, A) + gives(TWO, "this", B) + NONE + NONE
    steps += sent(ONE, "next") + fr(ONE) + miss(1, A) + no(7, bent(A, 0, 1)) + NONE
    # the number of services comes after the ensemble's extension bytes
    dice = Dice(1)
    for e in range(1, 8):
        for noise in zeros, ones, dice:
            steps += sent(TWO, "this", noise=noise, e=e, minor=e) + sent(ONE, "next", noise=noise, e=e) + fr(ONE)
    # reserved bits may be anything, and those of the header may differ in a repeat
    for noise in zeros, dice, dice, dice:
        steps += sent(TWO, "this", noise=noise) + GA + sent(TWO, "next", noise=noise) + GA
    for head in 0x1000, 0x2000, 0x3000:
        steps += miss(1, A, bent(A, head)) + gives(TWO, "this", bent(B, head)) + miss(0, B, bent(A, head)) + GA
    # a repeat isn't newly held
    x, y, z = cut(chunk(plain(24), "next"), "next")
    return steps + miss(2, x, x, x) + miss(1, z, x, z) + gives(plain(24), "next", y) + miss(0, y, x, z) + fr(plain(24)) + NONE


def interleaved():
    there, back = sent(LONG, "this"), sent(plain(183), "next", order=lambda pieces: pieces[::-1])
    assert len(there) == len(back) == 16
    steps = [step for i in range(16) for step in [there[i], back[i]] + miss(15 - i, back[i][0], back[0][0])]
    return steps + fr(plain(183)) + NONE


def clash_after_list():
    steps = sent(ONE, "this") + no(7, bent(ONLY, 0, 0x80), ONLY) + sent(TWO, "next") + no(7, bent(D, 0, 1), C, D, SPARE) + fr(TWO)
    steps += sent(ONE, "this") + NONE + sent(TWO, "next") + no(7, SPARE) + GA + sent(ONE, "next") + no(7, C) + GA + GA + fr(ONE)
    return steps + miss(1, C) + no(7, SPARE, D) + NONE + sent(TWO, "next") + fr(TWO) + NONE


def shorter_list():
    full, short, bare = (1, plain(61)[1] + plain(0)[1] + plain(120)[1]), plain(0, 0x0456), (0x0789, [])
    assert len(chunk(full, "next")) == 560
    steps = sent(LONG, "next") + sent(TWO, "this") + fr(LONG) + sent(ONE, "this") + sent(full, "next") + fr(full) + sent(short, "this")
    steps += sent(TWO, "next") + fr(TWO) + NONE + sent(LONG, "this") + sent(LONG, "next") + GA + sent(ONE, "this") + sent(TWO, "next")
    steps += fr(TWO) + sent(ONE, "next") + fr(ONE) + sent(LONG, "this") + NONE + sent(bare, "next") + fr(bare) + sent(short, "next")
    return steps + fr(short) + sent(LONG, "next") + GA + sent(short, "next") + fr(short) + sent(bare, "this") + NONE + NONE


def trial_ensembles():
    dice, (ts, (before, after)) = Dice(4), NOTICES
    # one between two good ones, in several segments; what is sent inside it isn't listed, so both lists print the same
    ours = ts, [before, (7, 7, 31, plain(9)[1][0][3], 1), after]
    same = ts, [before, (7, 0, 16, [(0x5356, 3, 3, 1), (0x454E, 2, 0, 0)], 1), after]
    assert listing(ours) == listing(same)
    steps = sent(ours, "this", h=3, e=2, s=1) + NONE + sent(ours, "next", h=3, e=2, s=1) + fr(ours) + NONE
    for minor, h, e, s in (0, 0, 0, 0), (1, 0, 7, 3), (7, 7, 0, 7), (4, 2, 1, 2):
        for kind in "this", "next":
            steps += sent(same, kind, dice.shuffled, dice, minor=minor, h=h, e=e, s=s)
        steps += fr(ours)
    # a clash spoils the slot, and the list stays
    x, y, z = cut(chunk(ours, "next", h=3, e=2, s=1), "next")
    steps += miss(2, y) + miss(1, x, y) + gives(ours, "next", z) + miss(0, x, y, z) + no(7, bent(y, 0, 1), y) + fr(ours) + NONE
    # all of them unknown: three, and as many as a chunk holds
    three = 1, [(5, 4, 3, [], 1), (6, 7, 0, [(0x0B01, 0, 3, 0)], 2), (7, 0, 0, [], 31)]
    most = 0xFEDC, [(i, i % 8, i % 32, [], 1 + i % 31) for i in range(138)]
    assert len(chunk(most, "this")) == 557
    for what in three, most:
        steps += sent(what, "this") + sent(what, "next", order=lambda pieces: pieces[::-1]) + fr(what) + NONE
    # the last one unknown, in one segment or two, without stuffing: its fields cut, its services cut, or all of it there
    for n, services, e, s, at in [(8, 0, 0, 0, 33), (5, 0, 2, 1, 31), (4, 3, 2, 0, 35), (4, 2, 2, 0, None), (20, 0, 0, 0, 69),
                                  (19, 1, 0, 0, 70), (19, 0, 0, 0, None)]:
        what = ts, plain(n)[1] + [(6, 7, 31, plain(services)[1][0][3], 16)]
        for kind, of in itertools.product(("this", "next"), repeat=2):
            data = chunk(what, of, e=e, s=s)
            *first, last = cut(data[:len(data) // 35 * 35], kind)
            steps += sent(ONE, "next") + GA + miss(1, *first)
            steps += no(f"9 at {at}", last) if at else no(10, last) if of != kind else gives(what, kind, last)
            steps += miss(0, *first, last) + fr(ONE if at or of != kind or kind == "this" else what)
    # reserved bits of any sort beside a version; with 0 it's a good ensemble
    for bits in 0, 255, *range(32, 255, 32):
        for version in [], [1], [16], [31]:
            what = ts, [(*before, *version), after]
            steps += sent(what, "this", noise=lambda: bits) + sent(what, "next", noise=lambda: bits) + fr(what)
    # and by chance
    for _ in range(20):
        for kind in "this", "next":
            what = chance(dice, 2 + dice(4), 8, True)
            steps += sent(what, kind, dice.shuffled, dice, minor=dice(8), h=dice(8), e=dice(8), s=dice(8))
        steps += fr(what)
    return steps + NONE


def ran_out():
    # a chunk ends in its second ensemble, with so many bytes there of its fields or of the first, middle or last of its services: the
    # first one's services and h see to that. Of one kind the second is unknown, of the other the first. The list from before stays
    dice, steps, unknown = Dice(5), [], itertools.cycle([1, 0, 0, 1])
    for pieces, e, s in (1, 0, 0), (1, 3, 2), (2, 2, 1), (16, 0, 0), (16, 7, 5):
        sizes = [4 + e] + 3 * [3 + s]
        for i, size in enumerate(sizes):
            steps += sent(ONE, "next")
            for there in range(size) if pieces < 16 else [size - 1]:
                at = 35 * pieces - there
                services, h = divmod(at - sum(sizes[:i]) - (5 + 4 + e), 3 + s)
                steps += GA
                for kind, order in ("this", 1), ("next", -1):
                    ensembles = plain(services)[1] + [(6, 7, 31, plain(3)[1][0][3])]
                    ensembles[next(unknown)] += 1 + dice(31),
                    data = chunk((0x0123, ensembles), kind, dice(8), h, e, s, dice)
                    *before, last = cut(data[:35 * pieces], kind, dice)[::order]
                    steps += wait(*before) + no(f"9 at {at}", last) + miss(0, last, *before[:1])
            steps += fr(ONE)
    return steps


def gatherings():
    x, y, z = cut(chunk(plain(24), "this"), "this")
    steps = GA + miss(1, A) + GA + miss(1, B) + gives(TWO, "this", A) + GA + sent(TWO, "this") + sent(ONE, "next") + GA + GA
    steps += miss(2, x) + miss(1, C, y) + GA + miss(2, z) + miss(1, D) + GA + miss(1, A, D) + GA + fr(ONE)
    steps += GA + miss(1, C) + GA + miss(1, D) + GA + NONE
    return steps + sent(TWO, "next") + GA + miss(1, C) + GA + fr(TWO) + GA + NONE


def dressed():
    dice, steps = Dice(2), []
    for minor in range(8):
        for k in range(8):
            this, after, h, s = chance(dice, 2 + dice(4), 8), chance(dice, 2 + dice(4), 8), (minor + k) % 8, (3 * minor + k) % 8
            steps += sent(this, "this", dice.shuffled, dice, minor=minor, h=k, e=s, s=h)
            steps += sent(after, "next", dice.shuffled, dice, minor=minor, h=h, e=k, s=s) + fr(after)
    return steps


def full_output():
    # in one block of 65,536 bytes five times what the output holds, each list another
    steps = []
    for i in range(40):
        this, after = plain(183, 0x1000 + i), plain(183, 0x2000 + i)
        steps += sent(this, "this") + sent(after, "next") + fr(after) + GA
    return steps


def record_by_record():
    # two turns, each of one record, for every 41 bytes that are read through a block of 39: over 4,096 of them
    return (GA + miss(1, A)) * 2100


def main():
    some = sent(ONE, "next") + miss(1, A) + fr(ONE) + miss(1, A)
    logs = {"sample": sent(ONE, "next") + fr(ONE) + NONE}
    logs |= {make.__name__: make() for make in (worked, refusals, slips, interleaved, clash_after_list, shorter_list, trial_ensembles,
                                                ran_out)}
    tails = {"mark_cut": b"S", "mark_cut_f": b"F", "segment_cut": B[:38], "segment_bare": b"SG", "unknown_mark": b"XXFR",
             "unknown_f": b"FG" + B[2:], "unknown_g": b"GRFR"}
    logs |= {name: some + [(tail, "END 15")] for name, tail in tails.items()}
    logs |= {"empty": []} | {make.__name__: make() for make in (gatherings, dressed, long_night, full_output, record_by_record)}
    (CRATES / "log_samples/data").mkdir(parents=True, exist_ok=True)
    (CRATES / "log").mkdir(exist_ok=True)
    counts, output = collections.Counter(), ""
    for name, steps in logs.items():
        data, answers = b"".join(record for record, _ in steps), [answer for _, answer in steps]
        text = transcript(data)
        early = "END 15" in answers
        if None not in answers:
            assert text == "\n".join(answers + ([""] if early else ["END 0", ""])), name
        (CRATES / "log_samples/data" / name).write_bytes(data)
        status = text.split()[-1]
        output += "".join(f"{name}, blocks of {size}\n{text}status {status}\n" for size in (39, 65536))
        counts.update(re.sub(r"(FR|missing|list \w+|at) [1-9]\d*$", r"\1 n", line) for line in text.splitlines() if line[:4] != "5453")
        print(f"{name:16} {len(steps) - early:5} records {len(data):6} bytes, prints {len(text):6}")
        if name == "sample":
            assert (data, text) == (SAMPLE, SAMPLE_PRINTS)
            (CRATES / "log/stdin").write_bytes(data)
            (CRATES / "log/stdout").write_text(text)
    # a folder can't be read: nothing is printed, not even the last line, and the status is 1
    output += "".join(f"., blocks of {size}\nstatus 1\n" for size in (39, 65536))
    (CRATES / "log_samples/args").write_text("\n".join([*logs, "."]) + "\n")
    (CRATES / "log_samples/stdout").write_text(output)
    assert set(counts) == set(SHAPES), set(counts) ^ set(SHAPES)
    for shape in SHAPES:
        print(f"{shape:16} {counts[shape]:5}")


if __name__ == "__main__":
    main()
