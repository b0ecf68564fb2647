#!/usr/bin/env python3
"""Prints the table of test vectors for the modes and the MAC.

    python3 tools/mode_vectors.py > crates/mode_tests/stdin

makes the table that crates/mode_tests reads. Each result is made by OpenSSL 3
with its GOST provider, through libcrypto's EVP calls. `crates/mode_tests/stdout`
holds `N vectors, 0 differ`; N goes to standard error here.

    python3 tools/mode_vectors.py --compare

prints no table. It makes the same results by BouncyCastle as well
(tools/ModeVectors.java), opens every sealed text again with both, and says
whether the two agree with each other and with the stored table.

A line of the table is one of

    ctr CIPHER KEY START CUT CUT TEXT SEALED KEY TAG
    cbc CIPHER KEY START CUT CUT TEXT SEALED KEY TAG
    mac CIPHER KEY CUT CUT TEXT MAC

CIPHER is `kuz` or `magma`; everything behind it is in lower-case hexadecimal,
and `-` stands for no bytes. SEALED of cbc is of the text filled by procedure 2.
TAG is the MAC of SEALED under the other cipher and the second key. A CUT says in
which pieces a text is fed: each byte is the length of one piece, as far as the
text goes, and what is left behind them is the last piece. Empty lines and lines
that begin with `#` are comments.

Debian's packages openssl, libengine-gost-openssl, libbcprov-java and
default-jdk-headless have what is needed. Where they are unpacked elsewhere
than in their place, OPENSSL_MODULES names the folder of gostprov.so and
--bcprov the jar.
"""

import argparse
import os
import random
import subprocess
import sys

from gost_provider import Provider

SEED = 13
EACH = 6
LONG = (4095, 4096, 4097, 10000)

HERE = os.path.dirname(os.path.abspath(__file__))
STORED = os.path.join(HERE, "..", "crates", "mode_tests", "stdin")

BLOCK = {"kuz": 16, "magma": 8}
OTHER = {"kuz": "magma", "magma": "kuz"}

# the examples of GOST R 34.13-2015, annex A: key, START of ctr, text, result of ctr, MAC
ANNEX = {
    "kuz": (
        "8899aabbccddeeff0011223344556677fedcba98765432100123456789abcdef",
        "1234567890abcef0",
        "1122334455667700ffeeddccbbaa998800112233445566778899aabbcceeff0a"
        "112233445566778899aabbcceeff0a002233445566778899aabbcceeff0a0011",
        "f195d8bec10ed1dbd57b5fa240bda1b885eee733f6a13e5df33ce4b33c45dee4"
        "a5eae88be6356ed3d5e877f13564a3a5cb91fab1f20cbab6d1c6d15820bdba73",
        "336f4d296059fbe34ddeb35b37749c67",
    ),
    "magma": (
        "ffeeddccbbaa99887766554433221100f0f1f2f3f4f5f6f7f8f9fafbfcfdfeff",
        "12345678",
        "92def06b3c130a59db54c704f8189d204a98fb2e67a8024c8912409b17b57e41",
        "4e98110c97b7b93c3e250d93d6e85d69136d868807b2dbef568eb680ab52a12d",
        "154e72102030c5bb",
    ),
}


# ---------------------------------------------------------------------------
# Keys, starting values, texts and cuttings.

def cutting(rng, length):
    """Lengths of pieces, of which some are 0 and some longer than what is left."""
    most = 24 if length <= 70 else 255
    count = rng.randrange(0, 9) if length <= 70 else rng.randrange(8, 48)
    return bytes(0 if rng.random() < 0.2 else rng.randrange(most + 1) for _ in range(count))


def case(rng, mode, cipher, length, kind="random"):
    """A vector but for its results. The kind of bytes is random, zeros or ff."""
    def some(count):
        return {"random": rng.randbytes(count), "zeros": bytes(count), "ff": bytes([255] * count)}[kind]

    n = BLOCK[cipher]
    start = {"ctr": n // 2, "cbc": n, "mac": 0}[mode]
    return {
        "mode": mode, "cipher": cipher, "key": rng.randbytes(32), "start": some(start), "text": some(length),
        "cuts": (cutting(rng, length), cutting(rng, length)), "tag_key": rng.randbytes(32),
    }


def annex_cases(rng, cipher):
    key, start, text, sealed, mac = ANNEX[cipher]
    ctr, tag = case(rng, "ctr", cipher, len(text) // 2), case(rng, "mac", cipher, len(text) // 2)
    for made in (ctr, tag):
        made.update(key=bytes.fromhex(key), text=bytes.fromhex(text))
    ctr["start"] = bytes.fromhex(start)
    return [ctr, tag]


def groups(rng):
    """Comments, each with the cases below it."""
    for cipher in BLOCK:
        yield f"{cipher}: the standard, annex A", annex_cases(rng, cipher)
    kinds = ["random"] * (EACH - 2) + ["zeros", "ff"]
    for cipher in BLOCK:
        for mode in ("ctr", "cbc", "mac"):
            yield f"{cipher} {mode}: 0 to 70 bytes", [
                case(rng, mode, cipher, length, kind) for length in range(71) for kind in kinds
            ]
            yield f"{cipher} {mode}: longer texts", [case(rng, mode, cipher, length) for length in LONG]


# ---------------------------------------------------------------------------
# OpenSSL.

NAME = {"kuz": "kuznyechik", "magma": "magma"}


def filled(n, text):
    """Procedure 2: hexadecimal 80, then zeros up to the end of a block."""
    return text + b"\x80" + bytes(n - 1 - len(text) % n)


def by_openssl(provider, vector):
    """The results of a vector: the MAC, or the sealed text and its tag."""
    mode, cipher, text = vector["mode"], NAME[vector["cipher"]], vector["text"]
    if mode == "mac":
        return [provider.mac(cipher, vector["key"], text)]
    if mode == "cbc":
        text = filled(BLOCK[vector["cipher"]], text)
    sealed = provider.seal(f"{cipher}-{mode}", vector["key"], vector["start"], text)
    assert provider.open(f"{cipher}-{mode}", vector["key"], vector["start"], sealed) == text
    return [sealed, provider.mac(NAME[OTHER[vector["cipher"]]], vector["tag_key"], sealed)]


# ---------------------------------------------------------------------------
# BouncyCastle.

def by_bouncycastle(jar, vectors):
    """The same from one process, which opens what it sealed as well."""
    lines = []
    for v in vectors:
        words = [v["mode"], v["cipher"]] + [word(v[part]) for part in ("key", "start", "text", "tag_key")]
        lines.append(" ".join(words) + "\n")
    command = ["java", "-cp", jar, os.path.join(HERE, "ModeVectors.java")]
    out = subprocess.run(command, input="".join(lines), stdout=subprocess.PIPE, check=True, text=True).stdout
    answers = out.splitlines()
    assert len(answers) == len(lines)
    return [[bytes.fromhex(w.strip("-")) for w in a.split(" ")] for a in answers]


# ---------------------------------------------------------------------------
# The table.

def word(part):
    return part.hex() or "-"


def line_of(vector, results):
    parts = [vector["key"]]
    if vector["mode"] != "mac":
        parts.append(vector["start"])
    parts += [*vector["cuts"], vector["text"], results[0]]
    if vector["mode"] != "mac":
        parts += [vector["tag_key"], results[1]]
    return " ".join([vector["mode"], vector["cipher"], *map(word, parts)])


def made():
    """Comments, and pairs of a vector and its results."""
    provider, rng = Provider(), random.Random(SEED)
    for comment, vectors in groups(rng):
        yield f"# {comment}"
        for vector in vectors:
            yield vector, by_openssl(provider, vector)


def table(rows):
    yield "# Test vectors for the modes and the MAC, made by tools/mode_vectors.py, which says what stands in a line."
    for row in rows:
        if isinstance(row, str):
            yield ""
            yield row
        else:
            yield line_of(*row)


def annex_differs(pairs):
    differ = 0
    for cipher, (key, start, text, sealed, mac) in ANNEX.items():
        found = [(v["mode"], r[0].hex()) for v, r in pairs if v["cipher"] == cipher and v["text"].hex() == text]
        if found != [("ctr", sealed), ("mac", mac)]:
            print(f"{cipher}: OpenSSL does not give the examples of annex A", file=sys.stderr)
            differ += 1
    return differ


def compare(rows, pairs, jar):
    """How many vectors differ between OpenSSL and BouncyCastle or in the stored table."""
    differ = 0
    for (vector, results), other in zip(pairs, by_bouncycastle(jar, [v for v, _ in pairs])):
        if results != other:
            print(f"differ: {line_of(vector, results)}: BouncyCastle {' '.join(map(word, other))}")
            differ += 1
    print(f"{len(pairs)} vectors, {differ} differ between OpenSSL and BouncyCastle")
    with open(STORED) as stored:
        same = stored.read().splitlines() == list(table(rows))
    print("the stored table " + ("is the same" if same else "DIFFERS"))
    return differ + (0 if same else 1)


def main():
    parser = argparse.ArgumentParser(description="Test vectors for the modes and the MAC.")
    parser.add_argument("--compare", action="store_true", help="compare OpenSSL, BouncyCastle and the stored table")
    parser.add_argument("--bcprov", default="/usr/share/java/bcprov.jar", help="BouncyCastle's jar")
    options = parser.parse_args()
    rows = list(made())
    pairs = [row for row in rows if not isinstance(row, str)]
    differ = annex_differs(pairs)
    if options.compare:
        differ += compare(rows, pairs, options.bcprov)
        print("all agree" if differ == 0 else "they DO NOT agree")
    else:
        for line in table(rows):
            print(line)
    print(f"{len(pairs)} vectors", file=sys.stderr)
    return 1 if differ else 0


if __name__ == "__main__":
    sys.exit(main())
