#!/usr/bin/env python3
"""Makes the stored texts and what the program write must answer to them, from docs/WRITE.md and the writer in tests/writer.py.

    python3 tests/typed.py

It writes crates/typed_samples/data, crates/typed_samples/args, crates/typed_samples/stdout, crates/write/stdin and crates/write/stdout.
"""
import pathlib
import re
import sys

sys.dont_write_bytecode = True

from writer import ENOUGH, FIRST, OLD_FORM, TWO, UNKNOWN, but, made, sized, write

CRATES = pathlib.Path(__file__).resolve().parent.parent / "crates"
UNCLEAR = b"write: not the word this or next, a space, and a listing in hex\n"
TOO_LONG = b"write: more than 65,535 bytes\n"


def typed(kind, listing, end="\n"):
    return f"{kind} {listing.hex()}{end}".encode()


def answer(text):
    """What is put out for a text, on standard output or on standard error, and the exit status."""
    if len(text) > 65535:
        return TOO_LONG, 2
    line = re.fullmatch(rb"(this|next) ((?:[0-9A-Fa-f]{2})*)\n?", text)
    if not line:
        return UNCLEAR, 2
    number, segments = write(bytes.fromhex(line[2].decode()), line[1].decode(), ENOUGH)
    if number:
        return b"write: refused with %d\n" % number, number
    return b"".join(b"SG" + segment for segment in segments), 0


TEXTS = {
    "first_this": typed("this", FIRST), "first_next": typed("next", FIRST), "capitals": typed("this", FIRST).replace(b"4e", b"4E"),
    "no_newline": typed("next", FIRST, ""), "no_ensemble": typed("this", FIRST[:4] + b"\x00"), "two_ensembles": typed("next", TWO),
    # 15 and 16 segments, full and not
    "longest_this": typed("this", made(183)), "longest_next": typed("next", made(183)), "full_16": typed("this", sized(560)),
    "full_15": typed("next", sized(525)), "one_more": typed("this", sized(526)), "ensembles_138": typed("this", made(*[0] * 138)),
    # 14
    "services_184": typed("this", made(184)), "ensembles_139": typed("next", made(*[0] * 139)),
    "ensembles_255": typed("this", made(*[0] * 255)),
    # 13, also where 14 would be
    "no_listing": typed("this", b""), "cut": typed("next", TWO[:-1]), "trailing": typed("this", TWO + b"\x00"),
    "flags_8": typed("this", but(TWO, (8, 8))), "unknown_ensemble": typed("this", UNKNOWN),
    "services_184_SP_2": typed("next", made(184)[:-1] + b"\x02"), "old_form": typed("this", OLD_FORM),
    "other_ensemble": typed("next", but(TWO, (35, 0x2B))),
    # no text of the form
    "empty": b"", "word_alone": b"this", "no_space": b"this5453", "capital_word": b"This 5453\n", "odd": b"this 545\n",
    "no_digit": b"next 54g3\n", "space_after": b"this 5453 \n", "two_newlines": b"this 5453\n\n", "newline_alone": b"\n",
    "other_word": b"that 5453\n",
    # the longest text, and one byte more
    "most_bytes": b"this " + 65530 * b"5", "more_bytes": b"this " + 65531 * b"5",
}


def main():
    folder = CRATES / "typed_samples"
    (folder / "data").mkdir(parents=True, exist_ok=True)
    output = b""
    for name, text in TEXTS.items():
        (folder / "data" / name).write_bytes(text)
        said, status = answer(text)
        output += b"%s\n%s\nstatus %d\n" % (name.encode(), said, status)
        print(f"{name:20} {len(text):6} bytes, {status:2}, {said[:40]!r}")
    # a folder can't be read
    output += b".\n\nstatus 1\n"
    (folder / "args").write_text("\n".join([*TEXTS, "."]) + "\n")
    (folder / "stdout").write_bytes(output)
    (CRATES / "write/stdin").write_bytes(TEXTS["longest_this"])
    (CRATES / "write/stdout").write_bytes(answer(TEXTS["longest_this"])[0])
    assert len(answer(TEXTS["longest_this"])[0]) == 16 * 39


if __name__ == "__main__":
    main()
