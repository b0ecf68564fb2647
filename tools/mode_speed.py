#!/usr/bin/env python3
"""Prints how fast the modes and the MAC are beside OpenSSL's GOST provider, in one run, in megabytes a second.

    (cd crates/mode_bench && rt run) && python3 tools/mode_speed.py [MEGABYTES]

Ours is crates/mode_bench/out/mode_bench, Kuznyechik by tables and Magma; the provider is called through libcrypto's EVP
calls (tools/gost_provider.py), one call for each piece; what the same calls take on no bytes is taken off. Both go over
pieces of 4,096 bytes: ctr, cbc sealing and opening, the MAC, and ctr with the MAC of the same bytes under a second key,
as a set seals its bodies.

The two are run in turn, sixty times, a short while each, and the best of each is taken, since other work on the machine
only slows a run down. The ratio is ours to the provider's; only ratios of one run mean anything.
"""

import ctypes
import subprocess
import sys
import time

from gost_provider import INT, Provider

ROUNDS = 60
PIECE = 4096
KEY = b"\x5a" * 32
TAG_KEY = b"\xa5" * 32
START = {"kuznyechik": {"ctr": b"\x5a" * 8, "cbc": b"\x5a" * 16}, "magma": {"ctr": b"\x5a" * 4, "cbc": b"\x5a" * 8}}


class Turn:
    """One piece after the other through the provider."""

    def __init__(self, provider, cipher, work):
        self.provider = provider
        self.piece = ctypes.create_string_buffer(PIECE)
        self.out = ctypes.create_string_buffer(PIECE + 64)
        self.wrote = INT(0)
        mode = {"ctr": "ctr", "ctr+mac": "ctr", "cbc-seal": "cbc", "cbc-open": "cbc", "mac": None}[work]
        self.context = mode and provider.begin(f"{cipher}-{mode}", KEY, START[cipher][mode], work != "cbc-open")
        self.mac = provider.begin_mac(cipher, TAG_KEY) if work.endswith("mac") else None

    def __call__(self, length):
        if self.context:
            self.provider.EVP_CipherUpdate(self.context, self.out, ctypes.byref(self.wrote), self.piece, length)
        if self.mac:
            self.provider.EVP_MAC_update(self.mac, self.out, length)

    def seconds(self, turns, length):
        begin = time.perf_counter()
        for _ in range(turns):
            self(length)
        return time.perf_counter() - begin


def theirs(provider, megabytes):
    for cipher in START:
        for work in ("ctr", "cbc-seal", "cbc-open", "mac", "ctr+mac"):
            turn = Turn(provider, cipher, work)
            turns = 256 * megabytes
            seconds = turn.seconds(turns, PIECE) - turn.seconds(turns, 0)
            yield (cipher, work), turns * PIECE / 1e6 / seconds


def ours(megabytes):
    out = subprocess.run(["crates/mode_bench/out/mode_bench", str(megabytes)], capture_output=True, text=True, check=True).stdout
    for line in out.splitlines():
        cipher, work, speed = line.split()
        yield (cipher, work), float(speed)


def main():
    megabytes = int(sys.argv[1]) if len(sys.argv) > 1 else 2
    provider, best, other = Provider(), {}, {}
    for _ in range(ROUNDS):
        for found, speeds in ((best, ours(megabytes)), (other, theirs(provider, megabytes))):
            for what, speed in speeds:
                found[what] = max(speed, found.get(what, 0))
    print(f"{'cipher':12}{'work':10}{'ours':>8}{'provider':>10}{'ratio':>8}")
    for (cipher, work), speed in best.items():
        print(f"{cipher:12}{work:10}{speed:>8.0f}{other[cipher, work]:>10.0f}{speed / other[cipher, work]:>8.2f}")


main()
