#!/usr/bin/env python3
"""Prints how fast the ciphers are beside OpenSSL's GOST provider, in one run, in megabytes a second.

    (cd crates/cipher_bench && rt run) && python3 tools/cipher_speed.py [MEGABYTES]

Ours is crates/cipher_bench/out/cipher_bench: blocks of pieces of 4,096 bytes, enciphered and deciphered one after the
other through the trait. The provider's is `openssl speed` over pieces of 4,096 bytes: Kuznyechik by ecb; it has no ecb
of Magma, so ctr stands for enciphering and cbc for deciphering there. OPENSSL_MODULES may name the folder of gostprov.so.

The two are run in turn, five times, and the best of each is taken, since other work on the machine only slows a run
down. The ratio is ours to the provider's; only ratios of one run mean anything.
"""

import re
import subprocess
import sys

ROUNDS = 5

PROVIDER = {
    ("kuznyechik", "encipher"): ["-evp", "kuznyechik-ecb"],
    ("kuznyechik", "decipher"): ["-decrypt", "-evp", "kuznyechik-ecb"],
    ("magma", "encipher"): ["-evp", "magma-ctr"],
    ("magma", "decipher"): ["-decrypt", "-evp", "magma-cbc"],
}


def provider(words):
    command = ["openssl", "speed", "-provider", "default", "-provider", "gostprov", "-bytes", "4096", "-seconds", "1"]
    out = subprocess.run(command + words, capture_output=True, text=True, check=True).stdout
    return float(re.search(r"([0-9.]+)k\s*$", out).group(1)) / 1000


def ours(megabytes):
    out = subprocess.run(["crates/cipher_bench/out/cipher_bench", megabytes], capture_output=True, text=True, check=True).stdout
    for line in out.splitlines():
        name, *speeds = line.split()
        for way, speed in zip(("encipher", "decipher"), speeds):
            yield (name, way), float(speed)


def main():
    megabytes = sys.argv[1] if len(sys.argv) > 1 else "64"
    best, theirs = {}, {}
    for _ in range(ROUNDS):
        for what, speed in ours(megabytes):
            best[what] = max(speed, best.get(what, 0))
        for what, words in PROVIDER.items():
            theirs[what] = max(provider(words), theirs.get(what, 0))
    print(f"{'cipher':20}{'way':10}{'ours':>8}{'provider':>10}{'ratio':>8}")
    for (name, way), speed in best.items():
        other = theirs[(name.split("-")[0], way)]
        print(f"{name:20}{way:10}{speed:>8.0f}{other:>10.0f}{speed / other:>8.2f}")


main()
