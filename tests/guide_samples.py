#!/usr/bin/env python3
"""Makes the stored inputs of the program guide and what it must print for them, by tests/guide.py, and prints how often each line occurs.

    python3 tests/guide_samples.py

It writes crates/guide_samples/data, crates/guide_samples/args, crates/guide_samples/stdout, crates/guide/stdin and crates/guide/stdout.
A case is made of steps, each a section with the lines that document 02 demands, said here without the reader of tests/guide.py; both must
agree. Only long_run has no such answers.
"""
import collections
import itertools
import pathlib
import re
import sys

sys.dont_write_bytecode = True

from guide import LOOPS, SECTION_MARK, guide
from guide_pieces import GALE, TIDE, WEATHER, Case, descriptor, mended, parts, section
from guide_random import long_run
from pieces import Dice, turned
from tunnel import record

CRATES = pathlib.Path(__file__).resolve().parent.parent / "crates"
BLOCKS = 65539, 131072
SHAPES = ["SE not ours", "SE not yet", "SE 20", "SE 21", "SE 22", "SE 23 at n", "SE 0 missing n", "SE 0 missing 0", "SE 0 repeat missing n",
          "SE 0 repeat missing 0", "name n", "name n text", "END 0", "END 15"]


def worked():
    # the second of two sections comes first; in the first, the length of the descriptor behind "Tide Tables Ltd" is damaged at first
    case, table = Case(), {"last": 1, "version": 4}
    case.noted(1, WEATHER, number=1, **table)
    case.se(turned(section([TIDE, GALE], **table), 27, 0x40), "23 at 26")
    case.se(section([GALE], version=5, current=0), "not yet")
    case.repeat(1, WEATHER, number=1, **table)
    case.se(section(table=0xDB), "not ours")
    case.noted(0, TIDE, GALE, **table)
    case.noted(0, GALE, version=5)
    return case.end()


def changing_nothing(**fields):
    """Sections that change nothing, and what is said of each; if they were in order, they'd be noted by these fields."""
    above, good = fields["last"] + 1, section([GALE], **fields)
    yield "20", b""
    yield from (("not ours", bytes([table]) + good[1:size]) for table in (0x00, 0xDB, 0xDD, 0xFF) for size in (1, 8, len(good)))
    yield from (("20", cut) for size in range(1, 9) for cut in (good[:size], mended(good[:size])))
    yield from (("20", section([GALE], length=length, **fields)) for length in (0, *(len(good) - 3 + off for off in (-3, -1, 1, 3)), 4095))
    yield from (("21", section([GALE], protocol=protocol, **fields)) for protocol in (1, 128, 255))
    yield "22", section([GALE], **fields | {"number": 255})
    yield from (("23 at 9", section(loops=loops, **fields)) for loops in (b"\0", b"\xFF"))
    # any of the faults at once: the first one is answered
    faults = [("not ours", {"table": 0xDD}), ("20", {"length": 5}), ("21", {"protocol": 1}), ("not yet", {"current": 0}),
              ("22", {"number": above}), ("23 at 9", {"loops": b"\1"})]
    for some in itertools.chain.from_iterable(itertools.combinations(faults, size) for size in range(1, 7)):
        yield some[0][0], section([GALE], **collections.ChainMap(*(fault for _, fault in some), fields))


def every_answer():
    # before the first section that is noted, the shortest; then each is followed by that one, which is still a repeat and lacks as many
    case, kept = Case(), {"number": 2, "last": 3, "version": 7}
    others = [kept | {"number": 1}, kept | {"version": 8}, kept | {"last": 4}]
    for says, bad in changing_nothing(**others[0]):
        case.se(bad, says)
    case.noted(3, **kept)
    for says, bad in itertools.chain.from_iterable(changing_nothing(**other) for other in others):
        case.se(bad, says)
        case.repeat(3, **kept)
    # the longest, with bytes left over that are only looked at if the length is right
    for length, size, says in [(4093, 4096, "23 at 10"), (4093, 4095, "20"), (4093, 4097, "20"), (4094, 4096, "20"), (4094, 4097, "20"),
                               (4094, 4098, "20"), (4095, 4098, "20")]:
        case.se(section(length=length, loops=bytes(size - LOOPS), **others[0]), says)
        case.repeat(3, **kept)
    case.noted(2, GALE, **others[0])
    return case.end()


def offsets():
    case, table = Case(), {"last": 1, "version": 1}
    case.noted(1, TIDE, number=1, **table)
    for at, loops in [
            # no name, also where there is one before it; one that is too long; no count of its descriptors
            (9, "01"), (9, "FF"), (13, "02 024142 00"), (12, "02 00 00 00"),
            (9, "01 01"), (9, "01 034142"), (9, "01 FF" + 254 * "41"), (13, "02 024142 00 054344"), (10, "01 00"), (12, "01 024142"),
            # no descriptor, its tag alone, one that is too long: the first, or the second
            (13, "01 024142 01"), (13, "01 024142 01 80"), (13, "01 024142 01 8001"), (13, "01 024142 01 80036162"), (11, "01 00 01 00"),
            (15, "01 024142 02 8000"), (15, "01 024142 02 8000 81"), (16, "01 024142 02 800161 810262"),
            # no count of additional descriptors, no such descriptor, its tag alone, one that is too long
            (9, "00"), (13, "01 024142 00"), (15, "01 024142 01 8000"), (10, "00 01"), (10, "00 01 80"), (10, "00 01 8001"),
            (10, "00 01 80FF" + 254 * "61"), (12, "00 02 8000 81"), (12, "00 02 8000 810261"), (12, "01 00 00 01 00"),
            (10, "00 024142 00 00"),
            # left over
            (10, "00 00 00"), (10, "00 00" + 500 * "DC"), (14, "01 024142 00 00 FF"), (13, "00 01 800161 00"), (13, "00 01 800161 8000")]:
        case.se(section(loops=bytes.fromhex(loops), **table), f"23 at {at}")
    # cut at every place, and lengthened
    providers, additional = [WEATHER, (b"",), TIDE], [descriptor(0x82, b"more"), descriptor(0x83)]
    whole = section(providers, additional=additional, **table)
    starts = list(itertools.accumulate(map(len, parts(providers, additional)), initial=LOOPS))
    for size in range(len(whole)):
        case.se(mended(whole[:size]), f"23 at {max(start for start in starts if start <= size)}" if size > 8 else "20")
    for more in b"\0", b"\xFF", whole, bytes(300):
        case.se(mended(whole + more), f"23 at {len(whole)}")
    case.repeat(1, number=1, **table)
    case.noted(0, *providers, additional=additional, **table)
    return case.end()


def out_of_order():
    case, old, new = Case(), {"last": 2, "version": 30}, {"last": 2, "version": 31}
    case.noted(2, TIDE, number=2, **old)
    case.noted(1, GALE, **old)
    # a repeat is one by its number alone, but it has to be in order
    case.repeat(1, TIDE, number=2, **old)
    case.repeat(1, WEATHER, GALE, number=2, **old)
    case.repeat(1, **old)
    case.se(section(number=2, loops=b"\1", **old), "23 at 9")
    # a new version comes in between, and then the old one again: each time, all is forgotten
    case.se(section([WEATHER], number=2, current=0, **new), "not yet")
    case.noted(2, WEATHER, number=2, **new)
    case.noted(2, TIDE, number=2, **old)
    case.noted(1, number=1, **old)
    case.noted(0, GALE, **old)
    case.repeat(0, GALE, number=1, **old)
    # so it is with another last number, above that or below
    case.noted(3, TIDE, number=1, last=3, version=30)
    case.noted(2, TIDE, number=1, **old)
    case.noted(1, TIDE, number=1, last=1, version=30)
    case.noted(0, last=1, version=30)
    case.noted(0, GALE, version=30)
    case.repeat(0, version=30)
    case.noted(2, **new)
    case.noted(1, number=2, **new)
    case.noted(0, number=1, **new)
    # every bit of both numbers counts
    for last, version in [(255, 31), *((1 << bit, 0) for bit in range(8)), *((0, 1 << bit) for bit in range(5))]:
        case.noted(last, GALE, last=last, version=version)
        case.repeat(last, last=last, version=version)
        case.noted(0, TIDE)
    return case.end()


def other_bits():
    def bits(value):
        return {"syntax": value >> 7, "private": value >> 6 & 1, "two": value >> 4 & 3, "eight": value, "pair": value & 3}

    # those of a byte, and all of them turned over; every version
    case = Case()
    for value in range(256):
        table = {"last": 1, "version": value % 32}
        case.noted(1, TIDE, **table, **bits(value))
        case.repeat(1, GALE, **table, **bits(255 - value))
        case.noted(0, WEATHER, number=1, **table, **bits(255 - value))
        case.repeat(0, number=1, **table, **bits(value))
    return case.end()


def steering():
    case, texts = Case(), {
        b"\x1B[2J\x1B]0;Tide\x07": r"\x1b[2J\x1b]0;Tide\x07", b"Tide\nSE 20\r\nEND 0\n": r"Tide\x0aSE 20\x0d\x0aEND 0\x0a",
        b"Gale\x08\x08\x08\x08Calm": r"Gale\x08\x08\x08\x08Calm",
        b"\0\t\x0B\x1F !~\x7F\x80\x9B\xA0\xFF": r"\x00\x09\x0b\x1f !~\x7f\x80\x9b\xa0\xff",
        b"\\": r"\\", rb"C:\tide\\": r"C:\\tide\\\\", rb"\x1b": r"\\x1b", b"": "", b" ": " ", b"  Tide  Tables ": "  Tide  Tables ",
        "Météo, 潮, ≈".encode(): r"M\xc3\xa9t\xc3\xa9o, \xe6\xbd\xae, \xe2\x89\x88", b"name 0 Tide": "name 0 Tide"}
    case.se(section([(name,) for name in texts]), "0 missing 0", *texts.values())
    for version, (name, text) in enumerate(texts.items(), 1):
        case.se(section([(name, descriptor(0x1B, name))], version=version), "0 missing 0", text)
    # every byte, in a name of its own and among others
    for half in range(128), range(128, 256):
        case.noted(1, *((bytes([byte]),) for byte in half), number=half[0] // 128, last=1, version=half[0] // 128)
        case.noted(0, (bytes(half),), (bytes(half)[::-1],), number=1 - half[0] // 128, last=1, version=half[0] // 128)
    return case.end()


def many_providers():
    case, many = Case(), 255 * [descriptor(0x80)]
    case.noted(0, *((b"Guide %d" % n,) for n in range(255)))
    case.noted(0, *255 * [(b"",)], version=1)
    case.noted(0, (b"Tide", *many), version=2)
    case.noted(0, TIDE, additional=many, version=3)
    case.noted(0, GALE, (b"", *many), WEATHER, (b"", *many), additional=many, version=4)
    case.noted(0, *255 * [(b"Gale", descriptor(0x80, b"wind"))], additional=many, version=5)
    # one of them is missing
    for loops in parts(255 * [(b"",)])[:-2], parts([(b"", *many)])[:-2], parts([], many)[:-1]:
        case.se(section(loops=b"".join(loops), version=6), f"23 at {LOOPS + len(b''.join(loops))}")
    case.repeat(0, version=5)
    return case.end()


def longest():
    # 4,096 bytes: fifteen names of 255 and one of 229, or as many descriptors
    case, sizes = Case(), [*15 * [255], 229]
    for version, byte in enumerate(b"T\\\0\xFF"):
        case.noted(0, *((size * bytes([byte]),) for size in sizes), version=version)
    case.noted(0, additional=[descriptor(0x80, bytes(size)) for size in sizes], version=4)
    case.noted(0, (b"", *(descriptor(0x80, bytes(size)) for size in sizes[1:]), descriptor(0x81, bytes(253))), version=5)
    # the most that one section prints
    most = [(size * b"\xFF",) for size in [*249 * [14], *6 * [15]]]
    case.noted(255, *most, last=255)
    assert {len(step) for step in case.records} == {4100} and sum(len(line) + 1 for line in case.lines[-256:]) == 16761
    # the largest offsets
    whole = section(most, last=255)
    case.se(turned(whole, 4095, 1), "23 at 4096")
    case.se(mended(whole[:-1]), "23 at 4095")
    case.se(mended(section(most[1:], last=255) + bytes(16)), "23 at 4080")
    case.repeat(255, last=255)
    # the longest records
    for first, says in (0xDC, "20"), (0xDD, "not ours"):
        case.se(bytes([first]) + 65534 * b"\xFF", says)
    case.repeat(255, *most, last=255)
    return case.end()


def full_table():
    # in any order; after each comes one that was noted, and at the end all of them; then the same in another version
    dice, case = Dice(7), Case()
    for table in {"last": 255, "version": 9}, {"last": 255, "version": 10}:
        order = dice.shuffled(range(256))
        for i, number in enumerate(order):
            case.noted(255 - i, (b"Guide %d" % number,), number=number, **table)
            case.repeat(255 - i, number=order[dice(i + 1)], **table)
        for number in dice.shuffled(range(256)):
            case.repeat(0, GALE, number=number, **table)
    return case.end()


def fullest():
    # the most that comes of so many bytes of input, over a block's length
    case = Case()
    for turn in range(90):
        case.noted(255, *255 * [(b"\xFF",)], last=255, version=turn % 2)
    return case.end()


def tiny_records():
    # as many records as there can be, over a block's length
    case = Case()
    for _ in range(16400):
        case.se(b"", "20")
    return case.end()


def broken():
    """By name, inputs that end with an unknown mark or a cut record; nothing is read behind that."""
    whole = record(SECTION_MARK, section([TIDE]))
    tails = {"mark_unknown": b"OP" + whole[2:] + whole, "mark_half": b"SG" + whole[2:], "mark_swapped": b"ES" + whole[2:],
             "mark_lower": b"se" + whole[2:], "mark_cut": b"S", "mark_cut_other": b"E", "length_none": b"SE", "length_cut": whole[:3],
             "content_none": whole[:4], "content_cut": whole[:-1], "content_long": b"SE" + 65536 * b"\xFF"}
    for name, tail in tails.items():
        yield name + "_alone", Case().end(tail)
        case = Case()
        case.noted(1, GALE, last=1)
        yield name, case.end(tail)


def shown(name, text, status):
    """What is printed for a case, read in blocks of both lengths."""
    return b"".join(f"{name}, blocks of {size}\n".encode() + text + f"status {status}\n".encode() for size in BLOCKS)


def shape_of(line):
    if line.startswith("name "):
        return "name n text" if " " in line[5:] else "name n"
    return re.sub(r"(at|missing) [1-9]\d*$", r"\1 n", line)


def main():
    cases = {make.__name__: make() for make in (worked, every_answer, offsets, out_of_order, other_bits, steering, many_providers, longest,
                                                full_table, fullest, tiny_records)}
    cases |= {"empty": Case().end()} | dict(broken()) | {"long_run": (long_run(), None)}
    (CRATES / "guide_samples/data").mkdir(parents=True, exist_ok=True)
    (CRATES / "guide").mkdir(exist_ok=True)
    counts, output = collections.Counter(), b""
    for name, (data, expected) in cases.items():
        text, status = guide(data)
        assert expected == text or name == "long_run", name
        (CRATES / "guide_samples/data" / name).write_bytes(data)
        output += shown(name, text, status)
        counts.update(map(shape_of, text.decode().splitlines()))
        print(f"{name:20} {len(data):6} bytes, prints {len(text):6}")
        if name == "worked":
            (CRATES / "guide/stdin").write_bytes(data)
            (CRATES / "guide/stdout").write_bytes(text)
    # a folder can't be read: nothing is printed, not even the last line, and the status is 1
    output += shown(".", b"", 1)
    (CRATES / "guide_samples/args").write_text("\n".join([*cases, "."]) + "\n")
    (CRATES / "guide_samples/stdout").write_bytes(output)
    assert set(counts) == set(SHAPES), set(counts) ^ set(SHAPES)
    for shape in SHAPES:
        print(f"{shape:22} {counts[shape]:6}")


if __name__ == "__main__":
    main()
