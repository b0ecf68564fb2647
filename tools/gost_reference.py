#!/usr/bin/env python3
"""Both block ciphers of GOST 34.12-2018, straight from their definitions.

    python3 tools/gost_reference.py crates/annex_tests/stdin crates/cipher_tests/stdin

computes every value of the tables again, says which lines differ, and prints
`N values, D differ`. It is written to be read, and shares nothing with the
crates; it is slow and not for use on secrets.

A block is `bytes`, the byte of the highest number (a15 or a7) first; a half
block and a round key of Magma are numbers.
"""

import sys

# ---------------------------------------------------------------------------
# Kuznyechik

PI = [
    252, 238, 221, 17, 207, 110, 49, 22, 251, 196, 250, 218, 35, 197, 4, 77,
    233, 119, 240, 219, 147, 46, 153, 186, 23, 54, 241, 187, 20, 205, 95, 193,
    249, 24, 101, 90, 226, 92, 239, 33, 129, 28, 60, 66, 139, 1, 142, 79,
    5, 132, 2, 174, 227, 106, 143, 160, 6, 11, 237, 152, 127, 212, 211, 31,
    235, 52, 44, 81, 234, 200, 72, 171, 242, 42, 104, 162, 253, 58, 206, 204,
    181, 112, 14, 86, 8, 12, 118, 18, 191, 114, 19, 71, 156, 183, 93, 135,
    21, 161, 150, 41, 16, 123, 154, 199, 243, 145, 120, 111, 157, 158, 178, 177,
    50, 117, 25, 61, 255, 53, 138, 126, 109, 84, 198, 128, 195, 189, 13, 87,
    223, 245, 36, 169, 62, 168, 67, 201, 215, 121, 214, 246, 124, 34, 185, 3,
    224, 15, 236, 222, 122, 148, 176, 188, 220, 232, 40, 80, 78, 51, 10, 74,
    167, 151, 96, 115, 30, 0, 98, 68, 26, 184, 56, 130, 100, 159, 38, 65,
    173, 69, 70, 146, 39, 94, 85, 47, 140, 163, 165, 125, 105, 213, 149, 59,
    7, 88, 179, 64, 134, 172, 29, 247, 48, 55, 107, 228, 136, 217, 231, 137,
    225, 27, 131, 73, 76, 63, 248, 254, 141, 83, 170, 144, 202, 216, 133, 97,
    32, 113, 103, 164, 45, 43, 9, 91, 203, 155, 37, 208, 190, 229, 108, 82,
    89, 166, 116, 210, 230, 244, 180, 192, 209, 102, 175, 194, 57, 75, 99, 182,
]

# the factors of l, for a15 first
FACTORS = [148, 32, 133, 16, 194, 192, 1, 251, 1, 192, 194, 16, 133, 32, 148, 1]


def times(a, b):
    """The product in GF(2)[x] / (x^8 + x^7 + x^6 + x + 1)."""
    product = 0
    while b:
        if b & 1:
            product ^= a
        a <<= 1
        if a & 0x100:
            a ^= 0x1C3
        b >>= 1
    return product


def linear(block):
    value = 0
    for factor, a in zip(FACTORS, block):
        value ^= times(factor, a)
    return value


def x(key, block):
    return bytes(k ^ a for k, a in zip(key, block))


def s(block):
    return bytes(PI[a] for a in block)


def inverse_s(block):
    return bytes(PI.index(a) for a in block)


def r(block):
    return bytes([linear(block)]) + block[:15]


def inverse_r(block):
    return block[1:] + bytes([linear(block[1:] + block[:1])])


def l(block):
    for _ in range(16):
        block = r(block)
    return block


def inverse_l(block):
    for _ in range(16):
        block = inverse_r(block)
    return block


def lsx(key, block):
    return l(s(x(key, block)))


def inverse_lsx(key, block):
    """The round of D: X, then the inverse of L, then the inverse of S."""
    return inverse_s(inverse_l(x(key, block)))


def constant(i):
    return l(i.to_bytes(16, "big"))


CONSTANTS = [constant(i) for i in range(1, 33)]


def f(key, left, right):
    return x(lsx(key, left), right), left


def kuz_keys(key):
    """The round keys K1 to K10."""
    pair = key[:16], key[16:]
    keys = list(pair)
    for i in range(4):
        for c in CONSTANTS[8 * i:8 * i + 8]:
            pair = f(c, *pair)
        keys += pair
    return keys


def kuz_encipher(key, block):
    keys = kuz_keys(key)
    for k in keys[:9]:
        block = lsx(k, block)
    return x(keys[9], block)


def kuz_decipher(key, block):
    keys = kuz_keys(key)
    for k in reversed(keys[1:]):
        block = inverse_lsx(k, block)
    return x(keys[0], block)


# ---------------------------------------------------------------------------
# Magma

# pi0 to pi7: pi0 is for the lowest half byte
PIS = [
    [12, 4, 6, 2, 10, 5, 11, 9, 14, 8, 13, 7, 0, 3, 15, 1],
    [6, 8, 2, 3, 9, 10, 5, 12, 1, 14, 4, 7, 11, 13, 0, 15],
    [11, 3, 5, 8, 2, 15, 10, 13, 14, 1, 7, 4, 12, 9, 6, 0],
    [12, 8, 2, 1, 13, 4, 15, 6, 7, 0, 10, 5, 3, 14, 9, 11],
    [7, 15, 5, 10, 8, 1, 6, 13, 0, 9, 3, 14, 11, 4, 2, 12],
    [5, 13, 15, 6, 9, 2, 12, 10, 11, 7, 8, 1, 4, 3, 14, 0],
    [8, 14, 2, 5, 6, 9, 1, 12, 15, 4, 11, 0, 13, 10, 3, 7],
    [1, 7, 14, 13, 0, 5, 8, 3, 4, 15, 10, 6, 9, 12, 11, 2],
]


def t(a):
    return sum(PIS[i][a >> 4 * i & 15] << 4 * i for i in range(8))


def g(key, a):
    value = t((a + key) % 2**32)
    return value << 11 & 0xFFFFFFFF | value >> 21


def big_g(key, a1, a0):
    return a0, g(key, a0) ^ a1


def magma_keys(key):
    """The round keys K1 to K32."""
    words = [int.from_bytes(key[i:i + 4], "big") for i in range(0, 32, 4)]
    return 3 * words + words[::-1]


def magma_rounds(keys, block):
    a1, a0 = int.from_bytes(block[:4], "big"), int.from_bytes(block[4:], "big")
    for k in keys:
        a1, a0 = big_g(k, a1, a0)
    # the last round does not change the halves about
    return (a0 << 32 | a1).to_bytes(8, "big")


def magma_encipher(key, block):
    return magma_rounds(magma_keys(key), block)


def magma_decipher(key, block):
    return magma_rounds(magma_keys(key)[::-1], block)


# ---------------------------------------------------------------------------
# The tables

def blocks(function):
    """Blocks one behind the other, and a block made of them."""
    return lambda given: function(*(given[i:i + 16] for i in range(0, len(given), 16)))


def words(function):
    """Words of 32 bits one behind the other, and the words made of them."""
    def values(given):
        made = function(*(int.from_bytes(given[i:i + 4], "big") for i in range(0, len(given), 4)))
        return b"".join(word.to_bytes(4, "big") for word in (made if isinstance(made, tuple) else (made,)))
    return values


def last_g(key, a1, a0):
    return g(key, a0) ^ a1, a0


def both_ways(encipher, decipher):
    """A line of the test vectors: the plain text enciphered and the cipher text deciphered."""
    def values(key, plain, cipher):
        key, plain, cipher = map(bytes.fromhex, (key, plain, cipher))
        return [decipher(key, cipher).hex(), encipher(key, plain).hex()]
    return values


# the first word of a line, and the value of the bytes behind it
LINES = {
    "kuz-S": blocks(s),
    "kuz-inverse-S": blocks(inverse_s),
    "kuz-R": blocks(r),
    "kuz-L": blocks(l),
    "kuz-inverse-L": blocks(inverse_l),
    "kuz-X": blocks(x),
    "kuz-C": lambda given: constant(given[0]),
    "kuz-F": lambda given: b"".join(f(constant(given[32]), given[:16], given[16:32])),
    "kuz-K": lambda given: kuz_keys(given[:32])[given[32] - 1],
    "kuz-lsx": blocks(lsx),
    "kuz-inverse-lsx": blocks(inverse_lsx),
    "magma-t": words(t),
    "magma-g": words(g),
    "magma-K": lambda given: magma_keys(given[:32])[given[32] - 1].to_bytes(4, "big"),
    "magma-round": words(big_g),
    "magma-last": words(last_g),
}

VECTORS = {
    "kuz": both_ways(kuz_encipher, kuz_decipher),
    "magma": both_ways(magma_encipher, magma_decipher),
}


def check_line(line):
    """Whether the line agrees, and what it should hold."""
    name, *rest = line.split(" ")
    if name in VECTORS:
        expected = VECTORS[name](*rest)
        return rest[1:] == expected, expected
    given, value = rest
    expected = LINES[name](bytes.fromhex(given)).hex()
    return value == expected, [expected]


def main(paths):
    count = differ = 0
    for path in paths:
        with open(path) as table:
            for number, line in enumerate(table, 1):
                line = line.rstrip("\n")
                if not line or line.startswith("#"):
                    continue
                agrees, expected = check_line(line)
                count += 1
                if not agrees:
                    differ += 1
                    print(f"{path}:{number}: computed {' '.join(expected)}")
    print(f"{count} values, {differ} differ")
    return 1 if differ else 0


if __name__ == "__main__":
    sys.exit(main(sys.argv[1:]))
