#!/usr/bin/env python3
"""Prints the table of test cases for contents.

    python3 tools/contents_cases.py > crates/contents_tests/stdin

makes the table that crates/contents_tests reads. `crates/contents_tests/stdout`
holds `N cases, 0 differ`; N goes to standard error here.

`place_of` and `contents_of` below are a reference of the format of its own:
written from the description of the format, sharing nothing with the crates.
`place_of` goes by the words of the format, and not by the steps of the program:
the place is the least k for which no sheet has the first k entries, and that a
sheet has them is shown by making the sheet and looking at it line by line.

A line of the table is `ANSWER | CONTENTS`, the second in hexadecimal digits.
ANSWER is `ok N BODIES M` or `no LAYER NUMBER PLACE`, or `of M SHEET`: then
CONTENTS are those of SHEET, which is in hexadecimal digits too, with the block
length M of the tag cipher; or `each MARKS`, 256 marks for each byte of
CONTENTS: how they are answered with that byte 0 to 255, `.` for accepted, else
the last digit of the place. Empty lines and lines that begin with `#` are
comments.
"""

import random
import re
import sys

SEED = 14
MAX_LENGTH = 1048576
MAX_BLOCKS = 1000000
CIPHERS = {16: b"kuz", 8: b"magma"}
MODES = {1: b"ctr", 2: b"cbc"}
BODY_LINE = re.compile(rb"b (ctr|cbc) ([0-9a-f]+) (0|[1-9][0-9]{0,6}) ([!-~]{1,32})")


# ---------------------------------------------------------------------------
# The reference.


def blocks_of(mode, n, length):
    return -(-length // n) if mode == b"ctr" else length // n + 1


def start_bytes(mode, n):
    return n // 2 if mode == b"ctr" else n


def entry_of(mode, start, length, name):
    number = {b"ctr": 1, b"cbc": 2}[mode]
    return bytes([number, len(name), 0, 0]) + length.to_bytes(4, "big") + start.ljust(16, b"\0") + name.ljust(32, b"\0")


def ordered(sheet):
    """n and the bodies of a sheet, None where it does not pass. Only sheets without comments are looked at."""
    if len(sheet) > 4096 or not sheet.endswith(b"\n"):
        return None
    first, *lines = sheet[:-1].split(b"\n")
    n = {b"c kuz": 16, b"c magma": 8}.get(first)
    if n is None or not 1 <= len(lines) <= 32:
        return None
    bodies, names, starts, blocks = [], set(), set(), 0
    for line in lines:
        fields = BODY_LINE.fullmatch(line)
        if not fields:
            return None
        mode, digits, length, name = fields.groups()
        length = int(length)
        blocks += blocks_of(mode, n, length)
        if length > MAX_LENGTH or len(digits) != 2 * start_bytes(mode, n) or name in names or blocks > MAX_BLOCKS:
            return None
        if mode == b"ctr" and digits in starts:
            return None
        names.add(name)
        if mode == b"ctr":
            starts.add(digits)
        bodies.append((mode, bytes.fromhex(digits.decode()), length, name))
    return n, bodies


def contents_of(sheet, m):
    n, bodies = ordered(sheet)
    return bytes([1, n, len(bodies), m]) + b"".join(entry_of(*body) for body in bodies)


def line_of(entry, n):
    """The one body line that could have this entry, None where there is none."""
    mode = MODES.get(entry[0])
    if mode is None:
        return None
    name = entry[24 : 24 + entry[1]]
    start = entry[8 : 8 + start_bytes(mode, n)]
    length = int.from_bytes(entry[4:8], "big")
    return b"b %s %s %d %s" % (mode, start.hex().encode(), length, name)


def some_sheet_has(contents):
    """Whether some sheet that passes has these contents."""
    n, m = contents[1], contents[3]
    entries = [contents[i : i + 56] for i in range(4, len(contents), 56)]
    lines = [line_of(entry, n) for entry in entries]
    if None in lines:
        return False
    sheet = b"c %s\n" % CIPHERS[n] + b"".join(line + b"\n" for line in lines)
    return ordered(sheet) is not None and contents_of(sheet, m) == contents


def place_of(contents):
    """None where some sheet has the contents, else the place."""
    if len(contents) < 4:
        return 0
    edition, n, count, m = contents[:4]
    if edition != 1 or n not in CIPHERS or m not in CIPHERS or not 1 <= count <= 32 or len(contents) != 4 + 56 * count:
        return 0
    for k in range(1, count + 1):
        if not some_sheet_has(bytes([edition, n, k, m]) + contents[4 : 4 + 56 * k]):
            return k
    return None


# ---------------------------------------------------------------------------
# The table.

cases = 0


def put(answer, contents):
    global cases
    cases += 1
    print(f"{answer} | {contents.hex()}")


def part(text):
    print(f"\n# == {text}")


def case(contents, place="?"):
    """A case whose place, if it is given, was worked out by hand."""
    found = place_of(contents)
    assert place == "?" or place == found, (place, found, contents.hex())
    if found is None:
        put(f"ok {contents[1]} {contents[2]} {contents[3]}", contents)
    else:
        put(f"no 4 14 {found}", contents)


def sheet_case(sheet, m):
    contents = contents_of(sheet, m)
    put(f"of {m} {sheet.hex()}", contents)
    case(contents, None)


def whole(n, m, *bodies):
    return bytes([1, n, len(bodies), m]) + b"".join(entry_of(*body) for body in bodies)


def start(i, length):
    return i.to_bytes(length, "big")


SAMPLES = [
    (b"c magma\nb ctr 12345678 3 plan.dwg\nb cbc 0011223344556677 16 roof.pdf\n", 8),
    (b"c magma\nb ctr 12345678 3 plan.dwg\nb cbc 0011223344556677 16 roof.pdf\n", 16),
    (b"c kuz\nb ctr 0123456789abcdef 1048576 a\n", 8),
    (b"c kuz\nb cbc ffeeddccbbaa99887766554433221100 0 #\nb ctr 0000000000000000 0 " + b"~" * 32 + b"\nb cbc ffeeddccbbaa99887766554433221100 65537 !\n", 16),
]


def sheets():
    part("the contents of sheets")
    for sheet, m in SAMPLES:
        sheet_case(sheet, m)
    many = b"c kuz\n" + b"".join(b"b cbc %032x 1048576 %s%02d\n" % (i, b"x" * 30, i) for i in range(15))
    sheet_case(many, 16)
    sheet_case(b"c magma\n" + b"".join(b"b ctr %08x %d n%d\n" % (i, 31 * i, i) for i in range(32)), 8)
    # the contents of the first sample, written by hand
    by_hand = "01080208" + "01080000" + "00000003" + "12345678" + "00" * 12 + "706c616e2e647767" + "00" * 24
    by_hand += "02080000" + "00000010" + "0011223344556677" + "00" * 8 + "726f6f662e706466" + "00" * 24
    assert contents_of(*SAMPLES[0]).hex() == by_hand


def every_byte():
    part("every byte of a sample with every value")
    for sheet, m in SAMPLES[:1] + SAMPLES[3:]:
        contents = contents_of(sheet, m)
        marks = []
        for i in range(len(contents)):
            for value in range(256):
                place = place_of(contents[:i] + bytes([value]) + contents[i + 1 :])
                marks.append("." if place is None else str(place % 10))
        put("each " + "".join(marks), contents)


def frames():
    part("headers and total lengths")
    good = contents_of(*SAMPLES[0])
    for length in range(61):
        case(good[:length], None if length == 116 else 0)
    for count in (0, 1, 3, 33, 255):
        case(good[:2] + bytes([count]) + good[3:], 0)
    case(good + b"\0", 0)
    case(good + good[4:60], 0)
    case(good[:60], 0)
    for i, values in ((0, (0, 2, 255)), (1, (0, 7, 9, 15, 17, 32)), (3, (0, 7, 9, 15, 17, 32))):
        for value in values:
            case(good[:i] + bytes([value]) + good[i + 1 :], 0)
    bodies = [(b"ctr", start(i, 8), 0, b"%d" % i) for i in range(33)]
    case(whole(16, 8, *bodies[:32]), None)
    case(whole(16, 8, *bodies), 0)


def repeats():
    part("names and STARTs that come again, and blocks together")
    a, b, c = (b"ctr", start(1, 8), 5, b"a"), (b"ctr", start(2, 8), 5, b"b"), (b"cbc", start(1, 16), 5, b"c")
    case(whole(16, 8, a, b, c), None)
    case(whole(16, 8, a, a), 2)
    case(whole(16, 8, a, b, (b"ctr", start(3, 8), 5, b"a")), 3)
    case(whole(16, 8, a, b, (b"ctr", start(2, 8), 5, b"d")), 3)
    case(whole(16, 8, a, c, (b"cbc", start(1, 16), 5, b"d")), None)
    case(whole(8, 8, (b"ctr", start(1, 4), 5, b"a"), (b"cbc", start(1, 4) + start(0, 4), 5, b"b")), None)
    case(whole(16, 8, a, (b"cbc", start(1, 8), 5, b"b")), None)
    full = [(b"ctr", start(i, 8), MAX_LENGTH, b"%d" % i) for i in range(15)]
    case(whole(16, 8, *full, (b"ctr", start(15, 8), 271360, b"z")), None)
    case(whole(16, 8, *full, (b"ctr", start(15, 8), 271361, b"z")), 16)
    case(whole(16, 8, *full, (b"ctr", start(15, 8), 271360, b"z"), (b"ctr", start(16, 8), 0, b"y")), None)
    case(whole(16, 8, *full, (b"ctr", start(15, 8), 271360, b"z"), (b"cbc", start(16, 16), 0, b"y")), 17)
    case(whole(16, 8, (b"ctr", start(1, 8), MAX_LENGTH + 1, b"a")), 1)
    case(whole(16, 8, a, (b"ctr", start(9, 8), MAX_LENGTH + 1, b"z"), a), 2)


def fields():
    part("entries that no line has")
    a, good = (b"ctr", start(1, 8), 5, b"a"), entry_of(b"ctr", start(2, 8), 7, b"name")
    head = whole(16, 8, a)
    for i in range(56):
        for value in (0, 3, 32, 33, 126, 127, 255):
            case(bytes([1, 16, 2, 8]) + head[4:] + good[:i] + bytes([value]) + good[i + 1 :])
    for length in range(256):
        case(bytes([1, 16, 2, 8]) + head[4:] + good[:1] + bytes([length]) + good[2:], None if length == 4 else 2)


def random_cases():
    part("random")
    rng = random.Random(SEED)
    for _ in range(40):
        n, m = rng.choice((8, 16)), rng.choice((8, 16))
        bodies = []
        for i in range(rng.randint(1, 32)):
            mode = rng.choice((b"ctr", b"cbc"))
            name = bytes(rng.randint(33, 126) for _ in range(rng.choice((1, 2, 31, 32))))
            bodies.append((mode, rng.randbytes(start_bytes(mode, n)), rng.choice((0, 1, 15, 16, 17, 1000, rng.randint(0, 40000))), name))
        contents = whole(n, m, *bodies)
        case(contents)
        i = rng.randrange(len(contents))
        case(contents[:i] + bytes([contents[i] ^ (1 << rng.randrange(8))]) + contents[i + 1 :])
        j, k = rng.randrange(len(bodies)), rng.randrange(len(bodies))
        bodies[j] = (bodies[j][0], bodies[k][1] if bodies[j][0] == bodies[k][0] else bodies[j][1], bodies[j][2], bodies[j][3])
        case(whole(n, m, *bodies))
        bodies[j] = bodies[j][:3] + (bodies[k][3],)
        case(whole(n, m, *bodies))


def main():
    print("# Test cases for contents, made by tools/contents_cases.py: ANSWER | CONTENTS.")
    sheets()
    every_byte()
    frames()
    repeats()
    fields()
    random_cases()
    print(f"{cases} cases", file=sys.stderr)


main()
