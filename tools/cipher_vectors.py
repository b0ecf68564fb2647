#!/usr/bin/env python3
"""Prints the table of test vectors for the block ciphers.

    python3 tools/cipher_vectors.py > crates/cipher_tests/stdin

makes the table that crates/cipher_tests reads. Each block is enciphered by
OpenSSL 3 with its GOST provider. `crates/cipher_tests/stdout` holds
`N vectors, 0 differ`; N goes to standard error here.

    python3 tools/cipher_vectors.py --compare

prints no table. It enciphers the same blocks by BouncyCastle as well
(tools/CipherVectors.java), deciphers them again with both, and says whether
the two agree with each other and with the stored table.

A line of the table is `kuz KEY PLAIN CIPHER` or `magma KEY PLAIN CIPHER`, in
lower-case hexadecimal. Empty lines and lines that begin with `#` are comments.

Debian's packages openssl, libengine-gost-openssl, libbcprov-java and
default-jdk-headless have what is needed. Where they are unpacked elsewhere
than in their place, OPENSSL_MODULES names the folder of gostprov.so and
--bcprov the jar.
"""

import argparse
import os
import random
import subprocess
import sys

SEED = 12
EACH = 200

HERE = os.path.dirname(os.path.abspath(__file__))
STORED = os.path.join(HERE, "..", "crates", "cipher_tests", "stdin")

BLOCK = {"kuz": 16, "magma": 8}

# the examples of the standard, annex A: key, plain text, cipher text
ANNEX = {
    "kuz": (
        "8899aabbccddeeff0011223344556677fedcba98765432100123456789abcdef",
        "1122334455667700ffeeddccbbaa9988",
        "7f679d90bebc24305a468d42b9d4edcd",
    ),
    "magma": (
        "ffeeddccbbaa99887766554433221100f0f1f2f3f4f5f6f7f8f9fafbfcfdfeff",
        "fedcba9876543210",
        "4ee901e5c2d8ca3d",
    ),
}


# ---------------------------------------------------------------------------
# The keys and blocks.

def one_byte(length, place, value):
    return bytes(value if i == place else 0 for i in range(length))


def groups(cipher, rng):
    """Comments, each with the keys and blocks below it."""
    n = BLOCK[cipher]
    key, plain, _ = ANNEX[cipher]
    yield "the standard, annex A", [(bytes.fromhex(key), bytes.fromhex(plain))]

    keys = [bytes(32), bytes([255] * 32), rng.randbytes(32)]
    blocks = [bytes(n), bytes([255] * n), rng.randbytes(n)]
    yield "all-zero, all-ff and random: keys and blocks", [(k, b) for k in keys for b in blocks]

    key = rng.randbytes(32)
    yield "one byte of the block is not zero", [
        (key, one_byte(n, i, rng.randrange(1, 256))) for i in range(n)
    ]

    block = rng.randbytes(n)
    yield "one byte of the key is not zero", [
        (one_byte(32, i, rng.randrange(1, 256)), block) for i in range(32)
    ]

    key = rng.randbytes(32)
    yield "one key, many blocks", [(key, rng.randbytes(n)) for _ in range(30)]

    rest = EACH - (1 + 9 + n + 32 + 30)
    yield "a new key for each block", [(rng.randbytes(32), rng.randbytes(n)) for _ in range(rest)]


# ---------------------------------------------------------------------------
# OpenSSL.

MODE = {"kuz": ["-kuznyechik-ecb"], "magma": ["-magma-cbc", "-iv", "00" * 8]}


def openssl(cipher, key, text, way):
    command = ["openssl", "enc", way, "-provider", "default", "-provider", "gostprov"]
    command += MODE[cipher] + ["-nopad", "-K", key.hex()]
    return subprocess.run(command, input=text, stdout=subprocess.PIPE, check=True).stdout


def openssl_blocks(cipher, key, blocks, way):
    """All blocks under one key. There is no ecb for Magma: a cbc text of one block each."""
    if cipher == "magma":
        return [openssl(cipher, key, b, way) for b in blocks]
    n = BLOCK[cipher]
    out = openssl(cipher, key, b"".join(blocks), way)
    return [out[i:i + n] for i in range(0, len(out), n)]


def by_openssl(cipher, cases, way="-e"):
    """What the blocks of (key, block) pairs become, with one call for each key."""
    of_key = {}
    for key, block in cases:
        of_key.setdefault(key, []).append(block)
    found = {}
    for key, blocks in of_key.items():
        out = openssl_blocks(cipher, key, blocks, way)
        assert len(out) == len(blocks)
        found.update({(key, b): c for b, c in zip(blocks, out)})
    return [found[case] for case in cases]


# ---------------------------------------------------------------------------
# BouncyCastle.

def by_bouncycastle(jar, cipher, cases):
    lines = [f"{cipher} {key.hex()} {block.hex()}" for key, block in cases]
    command = ["java", "-cp", jar, os.path.join(HERE, "CipherVectors.java")]
    text = "".join(line + "\n" for line in lines)
    out = subprocess.run(command, input=text, stdout=subprocess.PIPE, check=True, text=True).stdout
    answers = out.splitlines()
    assert len(answers) == len(lines)
    assert all(a.startswith(line + " ") for a, line in zip(answers, lines))
    return [bytes.fromhex(a.split(" ")[3]) for a in answers]


# ---------------------------------------------------------------------------
# The table.

def vectors():
    """Comments, and cases (cipher, key, plain, cipher text)."""
    rng = random.Random(SEED)
    for cipher in BLOCK:
        for comment, cases in groups(cipher, rng):
            yield f"# {cipher}: {comment}"
            for (key, plain), out in zip(cases, by_openssl(cipher, cases)):
                yield cipher, key, plain, out


def line_of(case):
    cipher, *words = case
    return " ".join([cipher] + [w.hex() for w in words])


def table(rows):
    yield "# Test vectors for the block ciphers, made by tools/cipher_vectors.py: CIPHER KEY PLAIN CIPHERTEXT."
    for row in rows:
        if isinstance(row, str):
            yield ""
            yield row
        else:
            yield line_of(row)


def annex_differs(cases):
    differ = 0
    for cipher, words in ANNEX.items():
        if " ".join((cipher,) + words) not in map(line_of, cases):
            print(f"{cipher}: OpenSSL does not give the example of annex A", file=sys.stderr)
            differ += 1
    return differ


def compare(rows, cases, jar):
    """How many cases differ between OpenSSL and BouncyCastle, in deciphering or in the stored table."""
    differ = 0
    for cipher in BLOCK:
        own = [case for case in cases if case[0] == cipher]
        pairs = [(key, plain) for _, key, plain, _ in own]
        back = by_openssl(cipher, [(key, out) for _, key, _, out in own], "-d")
        other = by_bouncycastle(jar, cipher, pairs)
        count = 0
        for case, plain, out in zip(own, back, other):
            if plain != case[2] or out != case[3]:
                print(f"differ: {line_of(case)}: BouncyCastle {out.hex()}, OpenSSL back {plain.hex()}")
                count += 1
        print(f"{cipher}: {len(own)} vectors, {count} differ between OpenSSL and BouncyCastle")
        differ += count
    with open(STORED) as stored:
        same = stored.read().splitlines() == list(table(rows))
    print("the stored table " + ("is the same" if same else "DIFFERS"))
    return differ + (0 if same else 1)


def main():
    parser = argparse.ArgumentParser(description="Test vectors for the block ciphers.")
    parser.add_argument("--compare", action="store_true", help="compare OpenSSL, BouncyCastle and the stored table")
    parser.add_argument("--bcprov", default="/usr/share/java/bcprov.jar", help="BouncyCastle's jar")
    options = parser.parse_args()
    rows = list(vectors())
    cases = [row for row in rows if not isinstance(row, str)]
    differ = annex_differs(cases)
    if options.compare:
        differ += compare(rows, cases, options.bcprov)
        print("all agree" if differ == 0 else "they DO NOT agree")
    else:
        for line in table(rows):
            print(line)
    print(f"{len(cases)} vectors", file=sys.stderr)
    return 1 if differ else 0


if __name__ == "__main__":
    sys.exit(main())
