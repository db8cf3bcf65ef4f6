#!/usr/bin/env python3
"""Spells the repository's own definitions and lemmas as Rattle does today, after the kit's port.py: words in snake case; a dash stays only between
the names of two definitions, and a plain word is joined by an underscore; types, facts and modules keep their capital.

usage: respell.py [--names] [--map FILE] FOLDER
       respell.py --pages OLDER FOLDER

FOLDER is the repository. Two crates get another name, since the kit has libraries called so. It rewrites its .rt and .antt files below crates/. --names prints the map and writes nothing; --map takes the names from
a file of such lines in place of reading them off the tree, so that a copy in which something was changed is turned by the same map. Names of src/
are not touched: no Rust name has a capital inside or a dash. --pages turns what stands between backticks in README.md and docs/, by the names
that the same declarations have in the folder OLDER, from before port.py, and in FOLDER.
"""

import os
import re
import shutil
import sys

# the kit has libraries of these names
CRATES = {"hex": "hex_text", "log": "log_program"}

DECLARED = re.compile(r"^(\s*)((?:abbrev\s+|unfoldable\s+|pub\s+)*)([^\s:(){}\[\];,.]+)\s*:\s", re.M)
WORD = re.compile(r'[^\s(){}.;,@"«»`\[\]\\]+')
# what no name is read in: comments and quoted text, of a proof file and of a source
QUIET_ANTT = re.compile(r'--[^\n]*|"(?:[^"\\]|\\.)*"')
QUIET_RT = re.compile(r"//[^\n]*|b?\"(?:[^\"\\]|\\.)*\"|b?'(?:[^'\\]|\\.)'")
# definitions of std that lemmas speak of
STD = set(
    "length map filter take drop append fold sum get_or set_at reverse concat flat_map zip min max repeat sets bits word cond"
    " count_ones ones pow add sub mul div mod".split()
)
# and plain words, which are names of definitions somewhere, but not where a lemma says them
PLAIN = set(
    "a after all and any as at before begun by end entry ends every first formed found from held in is keeps last left less long made more most named"
    " next no none not of off on one only or out own part parts same so some the then things to told two whole with"
    " exactly missing room taken either count".split()
)


def files(root, ending):
    for folder, dirs, names in os.walk(os.path.join(root, "crates")):
        dirs[:] = sorted(d for d in dirs if d not in ("out", "data", ".git"))
        for name in sorted(names):
            if name.endswith(ending):
                yield os.path.join(folder, name)


def text_of(path):
    with open(path, encoding="utf-8", newline="") as f:
        return f.read()


def snake(part):
    """A part that begins with a capital is a fact or a type, and keeps it."""
    if not re.match(r"[a-z]", part) or not re.search(r"[A-Z]", part):
        return part
    return re.sub(r"[A-Z]+", lambda m: "_" + m[0].lower(), part)


def declared(root):
    all_names, definitions = set(), set(STD)
    for path in files(root, ".antt"):
        text = QUIET_ANTT.sub(" ", text_of(path))
        below_proof = os.path.basename(path) == "Proof.antt"
        for _, _, name in DECLARED.findall(text):
            if not below_proof or re.search(r"[a-z0-9][A-Z]", name):
                all_names.add(name)
            if f"{os.sep}specs{os.sep}" in path and "-" not in name:
                definitions.add(snake(name))
    return all_names, definitions


def joined(name, definitions):
    """A dash stays between two that are each the whole name of a definition, or a fact."""
    parts = [snake(p) for p in name.split("-")]
    if len(parts) == 1 or "" in parts:
        return "-".join(parts)
    is_name = lambda p: p not in PLAIN and (p in definitions or re.match(r"[A-Z]", p))  # noqa: E731
    said, left = parts[0], parts[0]
    for part in parts[1:]:
        if is_name(left) and is_name(part):
            said, left = said + "-" + part, part
        else:
            said, left = said + "_" + part, left + "_" + part
    return said


def the_map(root):
    """A lemma that would have the name of its definition gets _lem."""
    names, definitions = declared(root)
    turned = {n: joined(n, definitions) for n in names if re.match(r"[A-Za-z]", n)}
    taken = {new for old, new in turned.items() if "-" not in old}
    changed = {new for old, new in turned.items() if "-" not in old and new != old}
    for old, new in turned.items():
        # a dash of the older form may be gone already, by port.py
        if ("-" in old and new in taken) or (new == old and new in changed):
            turned[old] = new + "_lem"
    return {old: new for old, new in turned.items() if old != new}


def apart(turned, root):
    """Names that would fall together: two of proof files, or one of them and what a source binds."""
    names, _ = declared(root)
    seen, bad = {n: n for n in names if n not in turned}, []
    for old, new in sorted(turned.items()):
        if new in seen:
            bad.append(f"{old} and {seen[new]} -> {new}")
        seen[new] = old
    bound = set()
    for path in files(root, ".rt"):
        text = QUIET_RT.sub(" ", text_of(path))
        bound |= set(re.findall(r"\b([a-z_][a-z0-9_]*)\s*:(?!:)", text)) | set(re.findall(r"\blet (?:mut )?([a-z_][a-z0-9_]*)", text))
    return bad, [f"{old} -> {new}, which a source binds" for old, new in sorted(turned.items()) if new in bound]


def turn(text, quiet, turned):
    out, at = [], 0
    word = lambda m: turned.get(m[0], m[0])  # noqa: E731
    for m in quiet.finditer(text):
        out += [WORD.sub(word, text[at : m.start()]), m[0]]
        at = m.end()
    return "".join(out) + WORD.sub(word, text[at:])


def in_backticks(text, turned):
    def said(m):
        return "`" + WORD.sub(lambda w: turned.get(w[0], w[0]), m[1]) + "`"

    return re.sub(r"`([^`\n]+)`", said, text)


def names_by_file(root):
    """Not of a function's proof: its names are the goals'."""
    out = {}
    for path in files(root, ".antt"):
        if os.path.basename(path) not in ("Proof.antt", "Answers.antt", "Invariants.antt"):
            out[os.path.relpath(path, root)] = [n for _, _, n in DECLARED.findall(QUIET_ANTT.sub(" ", text_of(path)))]
    return out


def turn_pages(older, root):
    before, after, turned = names_by_file(older), names_by_file(root), {}
    for path, names in before.items():
        for old, new in CRATES.items():
            path = path.replace(f"crates{os.sep}{old}{os.sep}", f"crates{os.sep}{new}{os.sep}")
        if len(names) != len(after.get(path, [])):
            print("left:", path, "has other declarations", file=sys.stderr)
            continue
        turned.update({a: b for a, b in zip(names, after[path]) if a != b})
    pages = [os.path.join(root, "README.md")]
    for folder, _, found in os.walk(os.path.join(root, "docs")):
        pages += [os.path.join(folder, n) for n in found if n.endswith(".md") and not n.startswith("PORT")]
    for path in sorted(pages):
        write(path, in_backticks(text_of(path), turned))


def rename_crates(root):
    """In folders, in crates.txt, and where a source or a proof names the crate."""
    for old, new in CRATES.items():
        folder = os.path.join(root, "crates", old)
        if os.path.isdir(folder):
            shutil.move(folder, os.path.join(root, "crates", new))
        listed = os.path.join(root, "crates.txt")
        lines = []
        for line in text_of(listed).split("\n"):
            head, colon, rest = line.partition(":")
            lines.append(re.sub(rf"^{old}$", new, head) + colon + re.sub(rf"(?<= ){old}(?= |$)", new, rest) if colon else line)
        write(listed, "\n".join(lines))
        for path in files(root, ".antt"):
            write(path, text_of(path).replace(f"Rattle.{old}.", f"Rattle.{new}."))
        for path in files(root, ".rt"):
            text = text_of(path).replace(f"Rattle.{old}.", f"Rattle.{new}.")
            write(path, re.sub(rf"(?<![\w:]){old}::", f"{new}::", text))


def write(path, text):
    if text != text_of(path):
        with open(path, "w", encoding="utf-8", newline="") as f:
            f.write(text)


def main(args):
    only_names = "--names" in args
    given = args[args.index("--map") + 1] if "--map" in args else None
    root = args[-1]
    if "--pages" in args:
        turn_pages(args[args.index("--pages") + 1], root)
        return 0
    if given:
        turned = dict(line.split() for line in text_of(given).splitlines())
    else:
        turned = the_map(root)
        bad, look = apart(turned, root)
        for line in bad:
            print("falls together:", line, file=sys.stderr)
        for line in look:
            print("look:", line, file=sys.stderr)
        if bad and not only_names:
            return 1
    if only_names:
        for old, new in sorted(turned.items()):
            print(old, new)
        return 0
    rename_crates(root)
    # a function of src/ keeps its name, in its source and in the proof that goes by it
    own = {m for path in files(root, ".rt") for m in re.findall(r"\bfn (\w+)", text_of(path))}
    kept = {old: new for old, new in turned.items() if old not in own}
    for path in files(root, ".rt"):
        write(path, turn(text_of(path), QUIET_RT, kept))
    for path in files(root, ".antt"):
        below_proof = os.path.basename(path) == "Proof.antt"
        write(path, turn(text_of(path), QUIET_ANTT, kept if below_proof else turned))
    return 0


if __name__ == "__main__":
    sys.exit(main(sys.argv[1:]))
