#!/usr/bin/env python3
"""Prints the wide table of Magma, as it stands in crates/magma/src/tables.rt (the constant WIDE).

For each place p of a byte in a word and each value v: v substituted by rows 2p and 2p + 1, at its place in the word,
rotated left by 11 bits. `--check` compares with the source instead. The check of the crate proves every entry; this
is only how the text was made.
"""

import re
import sys

from gost_reference import PIS


def entry(place, value):
    word = (16 * PIS[2 * place + 1][value // 16] + PIS[2 * place][value % 16]) << (8 * place)
    return ((word << 11) | (word >> 21)) & 0xFFFFFFFF


def main():
    table = [entry(p, v) for p in range(4) for v in range(256)]
    if "--check" in sys.argv:
        with open("crates/magma/src/tables.rt", encoding="utf-8") as source:
            found = [int(x, 16) for x in re.findall(r"0x([0-9a-f]{8}),", source.read())]
        print("the same" if found == table else "different")
        return
    for value in table:
        print(f"0x{value:08x},")


main()
