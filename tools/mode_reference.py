#!/usr/bin/env python3
"""The modes ctr and cbc and the MAC of GOST R 34.13-2015, straight from their definitions.

    python3 tools/mode_reference.py crates/mode_tests/annex.txt crates/mode_tests/stdin

computes every value of the tables again, says which lines differ, and prints
`N values, D differ`. It is written to be read, and shares nothing with the
crates; it is slow and not for use on secrets. The ciphers are those of
tools/gost_reference.py.
"""

import functools
import sys

import gost_reference as gost

# the same products and round keys come again and again
gost.times = functools.lru_cache(maxsize=None)(gost.times)
gost.kuz_keys = functools.lru_cache(maxsize=1)(gost.kuz_keys)


class Cipher:
    """n, E and D under one key."""

    def __init__(self, name, key):
        self.n = {"kuz": 16, "magma": 8}[name]
        forward, inverse = {
            "kuz": (gost.kuz_encipher, gost.kuz_decipher),
            "magma": (gost.magma_encipher, gost.magma_decipher),
        }[name]
        self.forward = functools.partial(forward, key)
        self.inverse = functools.partial(inverse, key)


def blocks(n, text):
    return [text[i:i + n] for i in range(0, len(text), n)]


def join(a, b):
    """Exclusive or; the longer one is cut."""
    return bytes(x ^ y for x, y in zip(a, b))


def filled(n, text):
    """Procedure 2: hexadecimal 80, then zeros up to the end of a block, always at least one byte."""
    return text + b"\x80" + bytes(n - 1 - len(text) % n)


def ctr(cipher, start, text):
    """Counter block i is START, then i in n/2 bytes, highest first."""
    half = cipher.n // 2
    return b"".join(
        join(block, cipher.forward(start + i.to_bytes(half, "big"))) for i, block in enumerate(blocks(cipher.n, text))
    )


def cbc(cipher, start, text):
    """A register of one block; the text is filled."""
    register, out = start, b""
    for block in blocks(cipher.n, filled(cipher.n, text)):
        register = cipher.forward(join(block, register))
        out += register
    return out


def cbc_opened(cipher, start, sealed):
    """The text with its filling taken off."""
    register, out = start, b""
    for block in blocks(cipher.n, sealed):
        out += join(cipher.inverse(block), register)
        register = block
    text = out.rstrip(b"\0")[:-1]
    assert filled(cipher.n, text) == out
    return text


def doubled(block):
    """Shifted left by one bit, and joined with B if the bit that fell off was set."""
    n = len(block)
    value = int.from_bytes(block, "big") << 1
    if value >> 8 * n:
        value ^= 1 << 8 * n | {8: 0x1B, 16: 0x87}[n]
    return value.to_bytes(n, "big")


def subkeys(cipher):
    """R, K1 and K2."""
    r = cipher.forward(bytes(cipher.n))
    return r, doubled(r), doubled(doubled(r))


def mac(cipher, text):
    """A text that ends on a whole block takes K1, any other K2 and procedure 3."""
    _, key1, key2 = subkeys(cipher)
    *before, last = blocks(cipher.n, text) or [b""]
    register = bytes(cipher.n)
    for block in before:
        register = cipher.forward(join(block, register))
    key = key1
    if len(last) < cipher.n:
        last, key = filled(cipher.n, last), key2
    return cipher.forward(join(join(last, register), key))


# ---------------------------------------------------------------------------
# The tables

OTHER = {"kuz": "magma", "magma": "kuz"}


def sealed_line(seals, opens):
    """A line of ctr or cbc: the text sealed, the sealed text opened, and the tag of it."""
    def values(name, words):
        key, start, _, _, text, sealed, tag_key, _ = words
        cipher, tag_cipher = Cipher(name, key), Cipher(OTHER[name], tag_key)
        return [*words[:4], opens(cipher, start, sealed), seals(cipher, start, text), tag_key, mac(tag_cipher, sealed)]
    return values


def mac_line(name, words):
    return [*words[:4], mac(Cipher(name, words[0]), words[3])]


def mac_keys_line(name, words):
    return [words[0], *subkeys(Cipher(name, words[0]))]


# the first word of a line: what should stand behind the cipher
LINES = {"ctr": sealed_line(ctr, ctr), "cbc": sealed_line(cbc, cbc_opened), "mac": mac_line, "mac-keys": mac_keys_line}


def main(paths):
    count = differ = 0
    for path in paths:
        with open(path) as table:
            for number, line in enumerate(table, 1):
                line = line.rstrip("\n")
                if not line or line.startswith("#"):
                    continue
                mode, name, *words = line.split(" ")
                words = [bytes.fromhex(w.strip("-")) for w in words]
                expected = LINES[mode](name, words)
                count += 1
                if words != expected:
                    differ += 1
                    print(f"{path}:{number}: computed {' '.join(w.hex() or '-' for w in expected)}")
    print(f"{count} values, {differ} differ")
    return 1 if differ else 0


if __name__ == "__main__":
    sys.exit(main(sys.argv[1:]))
