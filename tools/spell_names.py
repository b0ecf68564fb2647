#!/usr/bin/env python3
"""Brings the definitions and lemmas of this repository to snake case: once, after the kit's own script, at the top of the checkout.

The crate `hex` is `hex_digits`, since the kit has a library of the shorter name. A name of specs/ or proofs/ whose first letter is small, as `orderOf` or `inverseL-block`, becomes `order_of`, `inverse_l-block`.
The functions of src/ are in snake case already, so no name of theirs is met; strings are left alone. It stops, and changes
nothing, where two names of one file would fall together.
"""

import os
import re
import sys

WORD = re.compile(r"[^\s(){}\[\];,.:\"`]+")
STRING = re.compile(r"\"(?:[^\"\\]|\\.)*\"")


# lemmas whose names a definition of the same file takes now
LEMMAS = {
    "crates/modes_spec/proofs/Ctr.antt": {"joined_bytes": "joined-bytes"},
    "crates/sheet_laws/proofs/Conditions.antt": {"too_many_blocks": "too-many-blocks"},
    "crates/sheet_laws/proofs/Faults.antt": {"too_many_blocks": "too-many-blocks"},
}
# the field of a record of that name is no definition
FIELDS = {"block_length"}


def snake(word):
    word = word.replace("getD", "get_or")
    return re.sub(r"(?<=[a-z0-9'])([A-Z])", lambda m: "_" + m.group(1).lower(), word)


def is_old(word):
    return any(re.match(r"[a-z][A-Za-z0-9_']*[a-z0-9'][A-Z]|[a-z][A-Z]", part) for part in word.split("-"))


def files():
    for folder, dirs, names in os.walk("crates"):
        dirs[:] = sorted(d for d in dirs if d not in ("out", "data"))
        for name in sorted(names):
            if name.endswith((".antt", ".rt", ".edit")):
                yield os.path.join(folder, name)


def code(line):
    """The line without its comment."""
    return re.split(r"--|//", line)[0]


def old_names():
    found = set()
    for path in files():
        with open(path, encoding="utf-8") as f:
            for line in f:
                found |= {w for w in WORD.findall(STRING.sub("", code(line))) if is_old(w)}
    return {w: snake(w) for w in found}


def turned(text, names):
    kept = []

    def keep(m):
        kept.append(m.group(0))
        return f"\x00{len(kept) - 1}\x00"

    text = STRING.sub(keep, text)
    text = WORD.sub(lambda m: names.get(m.group(0), m.group(0)), text)
    return re.sub("\x00(\\d+)\x00", lambda m: kept[int(m.group(1))], text)


def rename_crate():
    os.rename("crates/hex", "crates/hex_digits")
    with open("crates.txt", encoding="utf-8") as f:
        text = f.read()
    lines = [x if x.startswith("#") else re.sub(r"\bhex\b", "hex_digits", x) for x in text.split("\n")]
    with open("crates.txt", "w", encoding="utf-8") as f:
        f.write("\n".join(lines))
    for path in files():
        with open(path, encoding="utf-8") as f:
            text = f.read()
        new = re.sub(r"\bRattle\.hex\.", "Rattle.hex_digits.", text)
        if not path.endswith(".antt"):
            new = re.sub(r"(?<![\w:.])hex::", "hex_digits::", new)
        if new != text:
            with open(path, "w", encoding="utf-8") as f:
                f.write(new)


def name_all():
    """std's word for "of each element, by recursion" stands under its own name: `All` is another word of std."""
    for path in files():
        with open(path, encoding="utf-8") as f:
            text = f.read()
        if "AllByRecursion as All" in text:
            text = text.replace("AllByRecursion as All", "\x00")
            text = re.sub(r"(?<![\w'.-])All(?![\w'-])", "AllByRecursion", text).replace("\x00", "AllByRecursion")
            with open(path, "w", encoding="utf-8") as f:
                f.write(text)


def main():
    rename_crate()
    name_all()
    names = old_names()
    out, clash = {}, []
    for path in files():
        with open(path, encoding="utf-8") as f:
            text = turned(f.read(), LEMMAS.get(path, {}))
        words = set(WORD.findall(re.sub(r"Rattle\.[\w.+]*", "", "\n".join(code(line) for line in text.split("\n")))))
        for w in sorted(words & names.keys()):
            if path.endswith(".antt") and names[w] in words - FIELDS:
                clash.append(f"{path}: {w} and {names[w]} would fall together")
        out[path] = turned(text, names)
    if clash:
        sys.exit("\n".join(clash))
    by_new = {}
    for w, n in names.items():
        by_new.setdefault(n, []).append(w)
    for n, ws in by_new.items():
        if len(ws) > 1:
            sys.exit(f"{' and '.join(ws)} would both be {n}")
    for path, new in out.items():
        with open(path, "w", encoding="utf-8") as f:
            f.write(new)
    print(f"{len(names)} names, {len(out)} files")


main()
