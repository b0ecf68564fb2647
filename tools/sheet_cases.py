#!/usr/bin/env python3
"""Prints the table of test cases for sheet::check.

    python3 tools/sheet_cases.py > crates/sheet_tests/stdin

makes the table that crates/sheet_tests reads. `crates/sheet_tests/stdout`
holds `N cases, 0 differ`; N goes to standard error here.

`check` below is a reference of the format of its own: it was written from the
description of the format, and shares nothing with the crates. The answers of
the hand-picked cases are written by hand, and the reference has to agree with
each of them. The answers of the random cases are the reference's.

A line of the table is `ANSWER | SHEET`. ANSWER is `ok N BODIES BLOCKS` or
`no LAYER NUMBER PLACE`. In SHEET `\\n` is byte 10, `\\xHH` any other byte
outside 32 to 126, and `\\\\` a backslash. Empty lines and lines that begin
with `#` are comments.
"""

import random
import re
import sys

SEED = 6
RANDOM_VALID = 150
RANDOM_MUTATED = 450


# ---------------------------------------------------------------------------
# The reference.

MAX_SHEET = 4096
MAX_BODIES = 32
MAX_LENGTH = 1048576
MAX_BLOCKS = 1000000
WORK_LENGTH = 1792

CIPHER_LINES = {b"c kuz": 16, b"c magma": 8}
BODY_LINE = re.compile(rb"b (ctr|cbc) ([0-9a-f]+) ([0-9]{1,7}) ([!-~]{1,32})")


class Refused(Exception):
    """A fault: number and place. Every fault of a sheet is of layer 2."""

    def __init__(self, number, place):
        super().__init__(number, place)
        self.number = number
        self.place = place


def blocks_of(mode, n, length):
    if mode == b"ctr":
        return -(-length // n)
    return length // n + 1


def start_digits(mode, n):
    return n if mode == b"ctr" else 2 * n


def look_at_bytes(sheet):
    """Fault 1, the length first."""
    if len(sheet) > MAX_SHEET:
        raise Refused(1, 0)
    for at, byte in enumerate(sheet):
        if byte != 10 and not 32 <= byte <= 126:
            raise Refused(1, 1 + sheet.count(b"\n", 0, at))


def look_at_body(fields, n, earlier, line):
    """Faults 4 to 9 of a body line, by number; gives its blocks."""
    mode, start, digits, name = fields
    if len(earlier) == MAX_BODIES:
        raise Refused(4, line)
    if int(digits) > MAX_LENGTH or digits != str(int(digits)).encode():
        raise Refused(5, line)
    if len(start) != start_digits(mode, n):
        raise Refused(6, line)
    if any(name == body[3] for body in earlier):
        raise Refused(7, line)
    if mode == b"ctr" and any(b"ctr" == body[0] and start == body[1] for body in earlier):
        raise Refused(8, line)
    total = sum(blocks_of(body[0], n, int(body[2])) for body in earlier + [fields])
    if total > MAX_BLOCKS:
        raise Refused(9, line)
    return total


def look_at_lines(sheet):
    pieces = sheet.split(b"\n")
    unended = pieces.pop()
    n = None
    bodies = []
    total = 0
    line = 0
    for line, text in enumerate(pieces, 1):
        if text == b"" or text.startswith(b"#"):
            continue
        fields = BODY_LINE.fullmatch(text)
        if text not in CIPHER_LINES and not fields:
            raise Refused(2, line)
        if (n is None) == (text not in CIPHER_LINES):
            raise Refused(3, line)
        if n is None:
            n = CIPHER_LINES[text]
        else:
            total = look_at_body(fields.groups(), n, bodies, line)
            bodies.append(fields.groups())
    if unended:
        raise Refused(2, line + 1)
    if n is None:
        raise Refused(3, line + 1)
    if not bodies:
        raise Refused(4, line + 1)
    return n, len(bodies), total


def check(sheet, work_length=WORK_LENGTH):
    """The answer of a sheet, as text."""
    try:
        if work_length < WORK_LENGTH:
            raise Refused(10, 0)
        look_at_bytes(sheet)
        return "ok %d %d %d" % look_at_lines(sheet)
    except Refused as fault:
        return "no 2 %d %d" % (fault.number, fault.place)


# ---------------------------------------------------------------------------
# The table.

cases = 0


def escaped(sheet):
    shown = {10: "\\n", 92: "\\\\"}
    return "".join(
        shown.get(b) or (chr(b) if 32 <= b <= 126 else "\\x%02x" % b) for b in sheet
    )


def part(text):
    print("\n# == %s" % text)


def put(answer, sheet):
    global cases
    cases += 1
    print("%s | %s" % (answer, escaped(sheet)))


def case(what, answer, sheet):
    """A case with its answer by hand."""
    assert check(sheet) == answer, (what, answer, check(sheet), sheet)
    print("# %s" % what)
    put(answer, sheet)


# ---------------------------------------------------------------------------
# Pieces of sheets.

DIGITS = b"0123456789abcdef"


def digits(count, last=None):
    """`count` digits of START; `last` sets the last one."""
    some = (DIGITS * 4)[:count]
    return some if last is None else some[:-1] + last


K8 = digits(8)
K16 = digits(16)
K32 = digits(32)


def start(i, count):
    """The i-th of many different STARTs."""
    return b"%0*x" % (count, i)


def bodies(count, mode=b"ctr", width=16, length=b"1"):
    """Body lines that differ in name and START."""
    return b"".join(b"b %s %s %s n%d\n" % (mode, start(i, width), length, i) for i in range(count))


def padded(sheet, length):
    """The sheet with a comment line in front of its last line, `length` bytes in all."""
    head, last = sheet[:-1].rsplit(b"\n", 1)
    dots = length - len(sheet) - 2
    return head + b"\n#" + b"." * dots + b"\n" + last + b"\n"


KUZ = b"c kuz\nb ctr " + K16 + b" 1 a\n"
MAGMA = b"c magma\nb ctr " + K8 + b" 1 a\n"


# ---------------------------------------------------------------------------
# The hand-picked cases.


def plain_sheets():
    part("sheets that pass")
    case("kuz, one ctr body", "ok 16 1 1", KUZ)
    case("magma, one ctr body", "ok 8 1 1", MAGMA)
    case("kuz, one cbc body", "ok 16 1 1", b"c kuz\nb cbc " + K32 + b" 1 a\n")
    case("magma, one cbc body", "ok 8 1 1", b"c magma\nb cbc " + K16 + b" 1 a\n")
    case("empty lines and comments everywhere", "ok 16 2 5",
         b"\n#one\n\nc kuz\n#\n\nb ctr " + K16 + b" 40 a\n# b ctr\nb cbc " + K32 + b" 16 b\n\n# end\n")
    case("a comment of every byte from 32 to 126", "ok 16 1 1", b"#" + bytes(range(32, 127)) + b"\n" + KUZ)
    case("a comment that says a second c line", "ok 16 1 1", b"c kuz\n#c kuz\nb ctr " + K16 + b" 1 a\n")
    case("an empty line at the end is a line", "ok 16 1 1", KUZ + b"\n")


def lengths_and_bytes():
    part("fault 1: the length of the sheet")
    case("4,096 bytes", "ok 16 1 1", padded(KUZ, 4096))
    case("4,097 bytes", "no 2 1 0", padded(KUZ, 4097))
    case("4,096 bytes of newlines: line 4,097 is the one behind the last", "no 2 3 4097", b"\n" * 4096)
    case("4,097 bytes of newlines", "no 2 1 0", b"\n" * 4097)
    case("4,096 bytes with no newline", "no 2 2 1", b"#" * 4096)
    case("too long with a bad byte in front: place 0 wins", "no 2 1 0", b"\x00" + padded(KUZ, 4096))
    case("too long with a bad byte at the end: place 0 wins", "no 2 1 0", padded(KUZ, 4096) + b"\xff")
    case("4,096 bytes, the last of them bad", "no 2 1 4", padded(KUZ, 4095) + b"\xff")

    part("fault 1: bytes")
    for byte in (0, 9, 13, 31, 127, 128, 160, 255):
        bad = bytes([byte])
        case("byte %d in a comment" % byte, "no 2 1 1", b"#" + bad + b"\n" + KUZ)
        case("byte %d in a name" % byte, "no 2 1 2", b"c kuz\nb ctr " + K16 + b" 1 a" + bad + b"\n")
    case("byte 126 in a comment", "ok 16 1 1", b"#~\n" + KUZ)
    case("byte 126 as a name", "ok 16 1 1", b"c kuz\nb ctr " + K16 + b" 1 ~\n")
    case("byte 33 as a name", "ok 16 1 1", b"c kuz\nb ctr " + K16 + b" 1 !\n")
    case("CR before each newline", "no 2 1 1", KUZ.replace(b"\n", b"\r\n"))
    case("CR before the second newline", "no 2 1 2", KUZ[:-1] + b"\r\n")
    case("tabs for spaces", "no 2 1 2", b"c kuz\nb\tctr\t" + K16 + b"\t1\ta\n")
    case("only byte 0", "no 2 1 1", b"\x00")
    case("only byte 127", "no 2 1 1", b"\x7f")
    case("a bad byte right behind the last newline", "no 2 1 3", KUZ + b"\x80")
    case("a bad byte in an unended last comment", "no 2 1 3", KUZ + b"# x\x80")
    case("two bad bytes: the line of the first", "no 2 1 2", b"\n\x01\n\x02\n")
    case("a bad byte in line 5, bad form in line 2: 1 wins", "no 2 1 5", b"c kuz\nb\n\n\n#\t\n")
    case("a bad byte in line 5, no c line: 1 wins", "no 2 1 5", b"\n\n\n\n\x7f\n")
    case("a bad byte in line 5 of a sheet that has all else", "no 2 1 5", KUZ + b"#\n#\n#\xc3\xa4\n")


def forms():
    part("fault 2: a last line with no newline")
    case("of a body", "no 2 2 2", KUZ[:-1])
    case("of a comment", "no 2 2 3", KUZ + b"# end")
    case("of a comment of one byte", "no 2 2 3", KUZ + b"#")
    case("of the c line", "no 2 2 1", b"c kuz")
    case("of a second c line: 2 before 3", "no 2 2 3", KUZ + b"c kuz")
    case("of a b line before any c line: 2 before 3", "no 2 2 1", b"b ctr " + K16 + b" 1 a")
    case("one space", "no 2 2 1", b" ")
    case("one space behind a good sheet", "no 2 2 3", KUZ + b" ")

    part("fault 2: c lines")
    for text in (b"c kuz ", b" c kuz", b"c  kuz", b"C kuz", b"c Kuz", b"c KUZ", b"c", b"c ", b"ckuz", b"c ku", b"c kuzn",
                 b"c kuz kuz", b"c magma ", b"c Magma", b"c magm", b"c magmaa", b"c aes", b"c kuz#", b"c kuz # x"):
        case("first line `%s`" % text.decode(), "no 2 2 1", text + KUZ[5:])
        case("second c line `%s`: 2 before 3" % text.decode(), "no 2 2 3", KUZ + text + b"\n")
    case("malformed second c line behind a misplaced one: the first line wins", "no 2 3 3", KUZ + b"c magma\nc  kuz\n")

    part("fault 2: b lines")
    good = b"b ctr " + K16 + b" 1 a"
    for what, text in (
        ("a space behind", good + b" "),
        ("a space in front", b" " + good),
        ("two spaces behind b", b"b  ctr " + K16 + b" 1 a"),
        ("two spaces behind MODE", b"b ctr  " + K16 + b" 1 a"),
        ("two spaces behind START", b"b ctr " + K16 + b"  1 a"),
        ("two spaces behind LENGTH", b"b ctr " + K16 + b" 1  a"),
        ("five fields", good + b" b"),
        ("three fields", b"b ctr " + K16 + b" 1"),
        ("three fields and a space", b"b ctr " + K16 + b" 1 "),
        ("two fields", b"b ctr " + K16),
        ("one field", b"b ctr"),
        ("b and a space", b"b "),
        ("b alone", b"b"),
        ("no MODE", b"b  " + K16 + b" 1 a"),
        ("no START", b"b ctr  1 a"),
        ("no LENGTH", b"b ctr " + K16 + b"  a"),
        ("MODE and START change places", b"b " + K16 + b" ctr 1 a"),
        ("LENGTH and NAME change places", b"b ctr " + K16 + b" a 1"),
        ("no space behind b", b"bctr " + K16 + b" 1 a"),
        ("capital B", b"B ctr " + K16 + b" 1 a"),
        ("capital MODE", b"b CTR " + K16 + b" 1 a"),
        ("one capital in MODE", b"b Ctr " + K16 + b" 1 a"),
        ("MODE ecb", b"b ecb " + K32 + b" 1 a"),
        ("MODE ct", b"b ct " + K16 + b" 1 a"),
        ("MODE ctrr", b"b ctrr " + K16 + b" 1 a"),
        ("MODE cbcc", b"b cbcc " + K32 + b" 1 a"),
        ("a capital hex digit at the end of START", b"b ctr 0123456789abcdeF 1 a"),
        ("a capital hex digit at the front of START", b"b ctr A123456789abcdef 1 a"),
        ("all of START in capitals", b"b cbc " + K32.upper() + b" 1 a"),
        ("g in START", b"b ctr 0123456789abcdeg 1 a"),
        ("the byte before 0 in START", b"b ctr 0123456789abcde/ 1 a"),
        ("the byte behind 9 in START", b"b ctr 0123456789abcde: 1 a"),
        ("the byte before a in START", b"b ctr 0123456789abcde` 1 a"),
        ("0x in START", b"b ctr 0x23456789abcdef 1 a"),
        ("LENGTH +1", b"b ctr " + K16 + b" +1 a"),
        ("LENGTH -1", b"b ctr " + K16 + b" -1 a"),
        ("LENGTH 1.0", b"b ctr " + K16 + b" 1.0 a"),
        ("LENGTH 1,000", b"b ctr " + K16 + b" 1,000 a"),
        ("LENGTH 1_0", b"b ctr " + K16 + b" 1_0 a"),
        ("LENGTH a, a digit of START only", b"b ctr " + K16 + b" a a"),
        ("LENGTH with the byte before 0", b"b ctr " + K16 + b" 1/ a"),
        ("LENGTH with the byte behind 9", b"b ctr " + K16 + b" 1: a"),
        ("LENGTH of 8 digits", b"b ctr " + K16 + b" 10000000 a"),
        ("LENGTH of 8 digits that is 1", b"b ctr " + K16 + b" 00000001 a"),
        ("LENGTH of 20 digits", b"b ctr " + K16 + b" 18446744073709551617 a"),
        ("NAME of 33 bytes", b"b ctr " + K16 + b" 1 " + b"n" * 33),
        ("NAME of 40 bytes", b"b ctr " + K16 + b" 1 " + b"n" * 40),
        ("a byte before the form", b"xb ctr " + K16 + b" 1 a"),
        ("another letter", b"d ctr " + K16 + b" 1 a"),
        ("a space alone", b" "),
        ("a space before a comment", b" # x"),
        ("a semicolon comment", b"; x"),
    ):
        case(what, "no 2 2 2", b"c kuz\n" + text + b"\n")
    case("bad form before any c line: 2 before 3", "no 2 2 1", b"x\n" + KUZ)
    case("bad form in a body line before any c line: 2 before 3", "no 2 2 1", b"b ctr " + K16 + b" 1 \n" + KUZ)
    case("lines count from 1 with empty lines and comments", "no 2 2 6", b"\n# x\n\n" + KUZ + b"c kuz \n")
    case("only the first of two bad lines is named", "no 2 2 3", KUZ + b"x\ny\n")

    part("names")
    case("NAME of 32 bytes", "ok 16 1 1", b"c kuz\nb ctr " + K16 + b" 1 " + b"n" * 32 + b"\n")
    case("NAME `#`", "ok 16 1 1", b"c kuz\nb ctr " + K16 + b" 1 #\n")
    case("NAME of backslashes", "ok 16 1 1", b"c kuz\nb ctr " + K16 + b" 1 \\n\\x41\\\\\n")
    case("NAME with a bar", "ok 16 1 1", b"c kuz\nb ctr " + K16 + b" 1 |\n")
    case("NAME of digits", "ok 16 1 1", b"c kuz\nb ctr " + K16 + b" 1 1\n")
    case("NAME of the first 32 bytes from 33 on", "ok 16 1 1", b"c kuz\nb ctr " + K16 + b" 1 " + bytes(range(33, 65)) + b"\n")
    case("NAME of the last 32 bytes up to 126", "ok 16 1 1", b"c kuz\nb ctr " + K16 + b" 1 " + bytes(range(95, 127)) + b"\n")


def ciphers_and_counts():
    part("fault 3")
    case("an empty sheet", "no 2 3 1", b"")
    case("only a newline", "no 2 3 2", b"\n")
    case("three newlines", "no 2 3 4", b"\n\n\n")
    case("comments only", "no 2 3 3", b"# a\n#\n")
    case("b before c", "no 2 3 1", b"b ctr " + K16 + b" 1 a\nc kuz\n")
    case("b before c, behind comments", "no 2 3 4", b"#\n\n#\nb ctr " + K16 + b" 1 a\nc kuz\n")
    case("b and no c", "no 2 3 1", b"b ctr " + K16 + b" 1 a\n")
    case("two c lines, next to each other", "no 2 3 2", b"c kuz\n" + KUZ)
    case("two c lines, apart", "no 2 3 3", KUZ + b"c kuz\n")
    case("kuz and then magma", "no 2 3 3", KUZ + b"c magma\n")
    case("magma and then kuz", "no 2 3 2", b"c magma\n" + KUZ)
    case("two c lines with empty lines between", "no 2 3 5", b"c kuz\n\n\n#\nc kuz\n")
    case("b before c with faults 5, 6 in it: 3 wins", "no 2 3 1", b"b ctr 0 01 a\nc kuz\n")

    part("fault 4")
    case("no body", "no 2 4 2", b"c kuz\n")
    case("no body, with empty lines and comments behind", "no 2 4 5", b"c magma\n\n#\n\n")
    case("no body, with a comment in front", "no 2 4 3", b"#\nc magma\n")
    case("32 bodies, kuz ctr", "ok 16 32 32", b"c kuz\n" + bodies(32))
    case("33 bodies, kuz ctr", "no 2 4 34", b"c kuz\n" + bodies(33))
    case("34 bodies, kuz ctr", "no 2 4 34", b"c kuz\n" + bodies(34))
    case("32 bodies, magma cbc", "ok 8 32 32", b"c magma\n" + bodies(32, b"cbc"))
    case("33 bodies, magma cbc", "no 2 4 34", b"c magma\n" + bodies(33, b"cbc"))
    case("32 bodies, kuz cbc", "ok 16 32 64", b"c kuz\n" + bodies(32, b"cbc", 32, b"16"))
    full = b"c kuz\n" + bodies(32)
    case("32 bodies and comments behind", "ok 16 32 32", full + b"#\n\n")
    case("32 bodies, a comment, a 33rd", "no 2 4 35", full + b"#\nb ctr " + K16 + b" 1 z\n")
    case("a 33rd body with fault 5, length", "no 2 4 34", full + b"b ctr " + K16 + b" 1048577 z\n")
    case("a 33rd body with fault 5, zero", "no 2 4 34", full + b"b ctr " + K16 + b" 01 z\n")
    case("a 33rd body with fault 6", "no 2 4 34", full + b"b ctr 0 1 z\n")
    case("a 33rd body with fault 7", "no 2 4 34", full + b"b ctr " + K16 + b" 1 n31\n")
    case("a 33rd body with fault 8", "no 2 4 34", full + b"b ctr " + start(31, 16) + b" 1 z\n")
    case("a 33rd body with faults 5, 6 and 7", "no 2 4 34", full + b"b ctr 0 01 n0\n")
    most = b"c magma\n" + b"".join(
        b"b ctr %s %s n%d\n" % (start(i, 8), b"1048576" if i < 7 else b"26400", i) for i in range(32))
    case("32 bodies of 7 * 131,072 and 25 * 3,300 blocks: 1,000,004", "no 2 9 33", most)
    most = most.replace(b" 26400 n31\n", b" 26368 n31\n")
    case("the same with 4 blocks less: 1,000,000", "ok 8 32 1000000", most)
    case("a 33rd body with fault 9", "no 2 4 34", most + b"b ctr " + K8 + b" 1 z\n")
    case("a 33rd body with faults 5, 7, 8 and 9", "no 2 4 34", most + b"b ctr " + start(3, 8) + b" 9999999 n3\n")
    case("a 33rd body with faults 5, 6, 7 and 9", "no 2 4 34", most + b"b ctr 0 09999 n3\n")
    case("a 33rd body with no form is no body: 2 before 4", "no 2 2 34", full + b"b ctr " + K16 + b" 1 z \n")
    case("a 33rd body with no newline: 2 before 4", "no 2 2 34", full + b"b ctr " + K16 + b" 1 z")
    case("a c line behind 32 bodies: 3", "no 2 3 34", full + b"c kuz\n")


def lengths():
    part("fault 5: LENGTH, one body of 0 to 1,048,576 bytes")
    for text, kuz_ctr, kuz_cbc, magma_ctr, magma_cbc in (
        (b"0", 0, 1, 0, 1),
        (b"1", 1, 1, 1, 1),
        (b"7", 1, 1, 1, 1),
        (b"8", 1, 1, 1, 2),
        (b"9", 1, 1, 2, 2),
        (b"15", 1, 1, 2, 2),
        (b"16", 1, 2, 2, 3),
        (b"17", 2, 2, 3, 3),
        (b"24", 2, 2, 3, 4),
        (b"31", 2, 2, 4, 4),
        (b"32", 2, 3, 4, 5),
        (b"33", 3, 3, 5, 5),
        (b"10", 1, 1, 2, 2),
        (b"100", 7, 7, 13, 13),
        (b"999999", 62500, 62500, 125000, 125000),
        (b"1000000", 62500, 62501, 125000, 125001),
        (b"1048575", 65536, 65536, 131072, 131072),
        (b"1048576", 65536, 65537, 131072, 131073),
    ):
        tail = b" " + text + b" a\n"
        what = "LENGTH %s, " % text.decode()
        case(what + "kuz ctr", "ok 16 1 %d" % kuz_ctr, b"c kuz\nb ctr " + K16 + tail)
        case(what + "kuz cbc", "ok 16 1 %d" % kuz_cbc, b"c kuz\nb cbc " + K32 + tail)
        case(what + "magma ctr", "ok 8 1 %d" % magma_ctr, b"c magma\nb ctr " + K8 + tail)
        case(what + "magma cbc", "ok 8 1 %d" % magma_cbc, b"c magma\nb cbc " + K16 + tail)
    for text in (b"1048577", b"1048580", b"1050000", b"1100000", b"2000000", b"9999999",
                 b"00", b"01", b"000", b"007", b"010", b"0000000", b"0000001", b"0999999", b"0104857"):
        case("LENGTH %s" % text.decode(), "no 2 5 2", b"c kuz\nb ctr " + K16 + b" " + text + b" a\n")
    case("LENGTH 1048577 in magma cbc", "no 2 5 2", b"c magma\nb cbc " + K16 + b" 1048577 a\n")
    case("LENGTH 01048576 has 8 digits: no form", "no 2 2 2", b"c kuz\nb ctr " + K16 + b" 01048576 a\n")
    case("LENGTH 00000000 has 8 digits: no form", "no 2 2 2", b"c kuz\nb ctr " + K16 + b" 00000000 a\n")
    case("LENGTH 10000000 has 8 digits: no form", "no 2 2 2", b"c kuz\nb ctr " + K16 + b" 10000000 a\n")


def starts():
    part("fault 6: the number of START digits")
    right = {(b"kuz", b"ctr"): 16, (b"kuz", b"cbc"): 32, (b"magma", b"ctr"): 8, (b"magma", b"cbc"): 16}
    answers = {b"kuz": "ok 16 1 1", b"magma": "ok 8 1 1"}
    for (cipher, mode), digit_count in right.items():
        for count in (1, 7, 8, 9, 15, 16, 17, 31, 32, 33, 64):
            case("%d digits in %s %s" % (count, cipher.decode(), mode.decode()),
                 answers[cipher] if count == digit_count else "no 2 6 2",
                 b"c " + cipher + b"\nb " + mode + b" " + digits(count) + b" 1 a\n")
    case("kuz digits in the second body of a magma sheet", "no 2 6 3", MAGMA + b"b ctr " + K16 + b" 1 b\n")
    case("a START of 3,000 digits", "no 2 6 2", b"c kuz\nb ctr " + b"0" * 3000 + b" 1 a\n")


def repeats():
    part("fault 7: names")
    two = b"c kuz\nb ctr " + digits(16, b"0") + b" 1 %s\nb ctr " + digits(16, b"1") + b" 1 %s\n"
    case("equal", "no 2 7 3", two % (b"a", b"a"))
    case("equal but for capitals", "ok 16 2 2", two % (b"a", b"A"))
    case("one is the front of the other", "ok 16 2 2", two % (b"ab", b"a"))
    case("one is the end of the other", "ok 16 2 2", two % (b"b", b"ab"))
    case("`#` twice", "no 2 7 3", two % (b"#", b"#"))
    case("32 bytes, equal", "no 2 7 3", two % (b"n" * 32, b"n" * 32))
    case("32 bytes, the last is another", "ok 16 2 2", two % (b"n" * 32, b"n" * 31 + b"m"))
    case("31 and 32 bytes", "ok 16 2 2", two % (b"n" * 31, b"n" * 32))
    case("a name as the START of the other", "ok 16 2 2", two % (b"a", digits(16, b"0")))
    case("equal, ctr and cbc", "no 2 7 3", KUZ + b"b cbc " + K32 + b" 1 a\n")
    case("equal, cbc and cbc", "no 2 7 3", b"c magma\nb cbc " + K16 + b" 1 a\nb cbc " + digits(16, b"0") + b" 1 a\n")
    case("equal, with a body between", "no 2 7 4",
         KUZ + b"b cbc " + K32 + b" 1 b\nb ctr " + digits(16, b"0") + b" 1 a\n")
    case("the 32nd has the name of the first", "no 2 7 33",
         b"c kuz\n" + bodies(31) + b"b ctr " + start(99, 16) + b" 1 n0\n")
    case("the 32nd has the name of the 31st", "no 2 7 33",
         b"c kuz\n" + bodies(31) + b"b ctr " + start(99, 16) + b" 1 n30\n")

    part("fault 8: STARTs")
    case("ctr and ctr", "no 2 8 3", KUZ + b"b ctr " + K16 + b" 1 b\n")
    case("magma, ctr and ctr", "no 2 8 3", MAGMA + b"b ctr " + K8 + b" 2 b\n")
    case("ctr and ctr, the last digit is another", "ok 16 2 2", KUZ + b"b ctr " + digits(16, b"0") + b" 1 b\n")
    case("ctr and ctr, the first digit is another", "ok 16 2 2", KUZ + b"b ctr f" + K16[1:] + b" 1 b\n")
    case("cbc and cbc", "ok 16 2 2", b"c kuz\nb cbc " + K32 + b" 1 a\nb cbc " + K32 + b" 1 b\n")
    case("magma, cbc and cbc", "ok 8 2 2", b"c magma\nb cbc " + K16 + b" 1 a\nb cbc " + K16 + b" 1 b\n")
    case("ctr, and cbc that begins with it", "ok 16 2 2", KUZ + b"b cbc " + K16 + K16 + b" 1 b\n")
    case("cbc, and ctr that begins it", "ok 16 2 2", b"c kuz\nb cbc " + K16 + K16 + b" 1 a\nb ctr " + K16 + b" 1 b\n")
    case("ctr of all zeros after cbc of all zeros", "ok 16 2 2",
         b"c kuz\nb cbc " + b"0" * 32 + b" 1 a\nb ctr " + b"0" * 16 + b" 1 b\n")
    case("ctr, and cbc of the same digits, too few: 6", "no 2 6 3", KUZ + b"b cbc " + K16 + b" 1 b\n")
    case("magma ctr, and cbc twice as long", "ok 8 2 2", MAGMA + b"b cbc " + K8 + K8 + b" 1 b\n")
    case("ctr, cbc, ctr: the third has the first's", "no 2 8 4",
         KUZ + b"b cbc " + K32 + b" 1 b\nb ctr " + K16 + b" 1 c\n")
    case("two ctr of length 0 with one START", "no 2 8 3",
         b"c kuz\nb ctr " + K16 + b" 0 a\nb ctr " + K16 + b" 0 b\n")
    case("the 32nd has the START of the first", "no 2 8 33",
         b"c kuz\n" + bodies(31) + b"b ctr " + start(0, 16) + b" 1 z\n")
    case("the 32nd has the START of the 31st", "no 2 8 33",
         b"c kuz\n" + bodies(31) + b"b ctr " + start(30, 16) + b" 1 z\n")


def sums():
    part("fault 9: the sum of blocks")
    kuz = b"c kuz\n" + bodies(15, length=b"1048576")
    case("kuz, 15 bodies of 65,536 blocks: 983,040", "ok 16 15 983040", kuz)
    case("kuz ctr, 16,960 blocks more: 1,000,000", "ok 16 16 1000000", kuz + b"b ctr " + K16 + b" 271360 z\n")
    case("kuz ctr, one byte more: 1,000,001", "no 2 9 17", kuz + b"b ctr " + K16 + b" 271361 z\n")
    case("kuz ctr, at 1,000,000 by rounding up", "ok 16 16 1000000", kuz + b"b ctr " + K16 + b" 271345 z\n")
    case("kuz cbc, 16,959 full blocks and one: 1,000,000", "ok 16 16 1000000", kuz + b"b cbc " + K32 + b" 271359 z\n")
    case("kuz cbc, one byte more: 1,000,001", "no 2 9 17", kuz + b"b cbc " + K32 + b" 271360 z\n")
    case("kuz, a 16th of 65,536 blocks", "no 2 9 17", kuz + b"b ctr " + K16 + b" 1048576 z\n")
    full = kuz + b"b ctr " + K16 + b" 271360 z\n"
    case("at 1,000,000, a ctr body of length 0: no block more", "ok 16 17 1000000",
         full + b"b ctr " + digits(16, b"0") + b" 0 y\n")
    case("at 1,000,000, a cbc body of length 0: one block more", "no 2 9 18", full + b"b cbc " + K32 + b" 0 y\n")
    case("at 1,000,000, a ctr body of length 1", "no 2 9 18", full + b"b ctr " + digits(16, b"0") + b" 1 y\n")

    magma = b"c magma\n" + bodies(7, width=8, length=b"1048576")
    case("magma, 7 bodies of 131,072 blocks: 917,504", "ok 8 7 917504", magma)
    case("magma ctr, 82,496 blocks more: 1,000,000", "ok 8 8 1000000", magma + b"b ctr " + K8 + b" 659968 z\n")
    case("magma ctr, one byte more: 1,000,001", "no 2 9 9", magma + b"b ctr " + K8 + b" 659969 z\n")
    case("magma cbc, 82,495 full blocks and one: 1,000,000", "ok 8 8 1000000", magma + b"b cbc " + K16 + b" 659967 z\n")
    case("magma cbc, one byte more: 1,000,001", "no 2 9 9", magma + b"b cbc " + K16 + b" 659968 z\n")
    case("magma, an 8th of 131,072 blocks", "no 2 9 9", magma + b"b ctr " + K8 + b" 1048576 z\n")
    case("magma cbc, 7 of 131,073 blocks: 917,511", "ok 8 7 917511", b"c magma\n" + bodies(7, b"cbc", 16, b"1048576"))
    case("kuz cbc, 15 of 65,537 blocks: 983,055", "ok 16 15 983055", b"c kuz\n" + bodies(15, b"cbc", 32, b"1048576"))
    case("over the sum in line 17, a bad form in line 18: the first line wins", "no 2 9 17",
         kuz + b"b ctr " + K16 + b" 1048576 z\nx\n")


def orders():
    part("several faults in one line: the least number wins")
    kuz = b"c kuz\n" + bodies(15, length=b"1048576") + b"b ctr " + K16 + b" 271360 z\n"
    case("2 to 9", "no 2 2 18", kuz + b"b ctr 0 01048577 z\n")
    case("5, 6, 7", "no 2 5 3", KUZ + b"b ctr 0 01 a\n")
    case("5 and 7 and 8", "no 2 5 3", KUZ + b"b ctr " + K16 + b" 00 a\n")
    case("5, by length, and 9", "no 2 5 18", kuz + b"b ctr " + digits(16, b"0") + b" 1048577 y\n")
    case("6 and 7", "no 2 6 3", KUZ + b"b ctr 0 1 a\n")
    case("6 and 7 and 9", "no 2 6 18", kuz + b"b cbc " + K16 + b" 1 z\n")
    case("6 and 9", "no 2 6 18", kuz + b"b cbc " + K16 + b" 1 y\n")
    case("7 and 8", "no 2 7 3", KUZ + b"b ctr " + K16 + b" 1 a\n")
    case("7, 8 and 9", "no 2 7 18", kuz + b"b ctr " + K16 + b" 1 z\n")
    case("7 and 9", "no 2 7 18", kuz + b"b ctr " + digits(16, b"0") + b" 1 z\n")
    case("8 and 9", "no 2 8 18", kuz + b"b ctr " + K16 + b" 1 y\n")
    case("7 by one body, 8 by another", "no 2 7 4",
         KUZ + b"b ctr " + digits(16, b"0") + b" 1 b\nb ctr " + digits(16, b"0") + b" 1 a\n")

    part("faults in two lines: the first line wins")
    case("9 and then 2", "no 2 9 18", kuz + b"b ctr " + digits(16, b"0") + b" 1 y\nx\n")
    case("8 and then 2", "no 2 8 3", KUZ + b"b ctr " + K16 + b" 1 b\nx\n")
    case("7 and then 3", "no 2 7 3", KUZ + b"b ctr " + digits(16, b"0") + b" 1 a\nc kuz\n")
    case("6 and then 5", "no 2 6 2", b"c kuz\nb ctr 0 1 a\nb ctr " + K16 + b" 01 b\n")
    case("5 and then 4", "no 2 5 2", b"c kuz\nb ctr " + K16 + b" 01 z\n" + bodies(33))
    case("5 and then a last line with no newline", "no 2 5 2", b"c kuz\nb ctr " + K16 + b" 01 z\n#")
    case("3 and then 2", "no 2 3 1", b"b ctr " + K16 + b" 1 a\nx\n")
    case("2 and then 3 at the end", "no 2 2 1", b"x\n")
    case("2 and then 4 at the end", "no 2 2 2", b"c kuz\nx\n")
    case("2 in an unended line, 3 at the end", "no 2 2 1", b"#")
    case("2 in an unended line, 4 at the end", "no 2 2 2", b"c kuz\n#")
    case("no c line and no body: 3 before 4", "no 2 3 2", b"#\n")
    case("9 in line 18, a bad byte in line 19: 1 wins", "no 2 1 19", kuz + b"b ctr " + digits(16, b"0") + b" 1 y\n\t")


def hand_picked():
    plain_sheets()
    lengths_and_bytes()
    forms()
    ciphers_and_counts()
    lengths()
    starts()
    repeats()
    sums()
    orders()


# ---------------------------------------------------------------------------
# The random cases.

EDGES = (0, 0, 1, 7, 8, 9, 15, 16, 17, 31, 32, 33, 100, 4096)
GRAPHIC = bytes(range(33, 127))


def random_name(rng, taken):
    while True:
        size = rng.choice((1, 1, 2, 3, 5, 8, 31, 32))
        alphabet = rng.choice((b"ab", b"aAbB#", GRAPHIC))
        name = bytes(rng.choice(alphabet) for _ in range(size))
        if name not in taken:
            return name


def random_start(rng, mode, width, taken):
    while True:
        digits_of = rng.choice((b"0", b"01", DIGITS))
        text = bytes(rng.choice(digits_of) for _ in range(width))
        if mode == b"cbc" or text not in taken:
            return text


def random_length(rng, mode, n, room, heavy):
    """A length whose blocks fit into the room that is left; heavy bodies fill it."""
    if heavy:
        length = rng.choice((1048576, 1048575, rng.randint(900000, 1048576)))
    else:
        length = rng.choice(EDGES + (rng.randint(0, 20000),))
    if blocks_of(mode, n, length) > room:
        most = n * room if mode == b"ctr" else n * room - 1
        length = max(0, most - rng.choice((0, 0, 1, n)))
    return length


def random_bodies(rng, n, heavy):
    if heavy:
        count = n + rng.randint(0, 2)
    else:
        count = rng.choice((1, 1, 2, 2, 3, 3, 4, 4, 5, 6, 7, 8, 12, 32))
    names, ctr_starts, lines, room = set(), set(), [], MAX_BLOCKS
    for _ in range(count):
        mode = rng.choice((b"ctr", b"cbc"))
        length = random_length(rng, mode, n, room, heavy)
        room -= blocks_of(mode, n, length)
        if room < 0:
            break
        text = random_start(rng, mode, start_digits(mode, n), ctr_starts)
        name = random_name(rng, names)
        names.add(name)
        if mode == b"ctr":
            ctr_starts.add(text)
        lines.append(b"b %s %s %d %s" % (mode, text, length, name))
    return lines


def with_comments(rng, lines):
    out = []
    for line in lines:
        while rng.random() < 0.15:
            out.append(rng.choice((b"", b"#", b"# a comment", b"#c kuz", b"#" + bytes([rng.randint(32, 126)]))))
        out.append(line)
    if rng.random() < 0.2:
        out.append(rng.choice((b"", b"# end")))
    return out


def random_valid(rng):
    while True:
        cipher, n = rng.choice(((b"c kuz", 16), (b"c magma", 8)))
        lines = [cipher] + random_bodies(rng, n, rng.random() < 0.25)
        sheet = b"".join(line + b"\n" for line in with_comments(rng, lines))
        if rng.random() < 0.03 and len(sheet) < 4000:
            sheet = padded(sheet, rng.randint(4094, 4096))
        if check(sheet).startswith("ok "):
            return sheet


def random_byte(rng):
    return rng.choice((
        rng.choice(b"0123456789"),
        rng.choice(DIGITS),
        rng.choice(b"  \n#bc"),
        rng.randint(33, 126),
        rng.choice((0, 9, 13, 31, 127, 128, 255)) if rng.random() < 0.4 else rng.choice(b"01aAf"),
    ))


def change_byte(rng, sheet):
    at = rng.randrange(len(sheet))
    return sheet[:at] + bytes([random_byte(rng)]) + sheet[at + 1:]


def insert_byte(rng, sheet):
    at = rng.randint(0, len(sheet))
    return sheet[:at] + bytes([random_byte(rng)]) + sheet[at:]


def delete_byte(rng, sheet):
    at = rng.randrange(len(sheet))
    return sheet[:at] + sheet[at + 1:]


def swap_lines(rng, sheet):
    lines = sheet.splitlines(True)
    i, j = rng.randrange(len(lines)), rng.randrange(len(lines))
    lines[i], lines[j] = lines[j], lines[i]
    return b"".join(lines)


def double_line(rng, sheet):
    lines = sheet.splitlines(True)
    i, j = rng.randrange(len(lines)), rng.randint(0, len(lines))
    lines.insert(j, lines[i])
    return b"".join(lines)


def drop_line(rng, sheet):
    lines = sheet.splitlines(True)
    del lines[rng.randrange(len(lines))]
    return b"".join(lines)


def copy_field(rng, sheet):
    """One field of a line from the same field of another, for faults 5 to 9."""
    lines = [line.split(b" ") for line in sheet.split(b"\n")]
    full = [i for i, fields in enumerate(lines) if len(fields) == 5]
    if len(full) < 2:
        return change_byte(rng, sheet)
    i, j = rng.sample(full, 2)
    field = rng.choice((1, 2, 2, 2, 3, 4))
    lines[i][field] = lines[j][field]
    return b"\n".join(b" ".join(fields) for fields in lines)


def change_length(rng, sheet):
    """Another LENGTH in one body, for faults 5 and 9."""
    lines = [line.split(b" ") for line in sheet.split(b"\n")]
    full = [fields for fields in lines if len(fields) == 5]
    if not full:
        return change_byte(rng, sheet)
    fields = rng.choice(full)
    fields[3] = rng.choice((b"0" + fields[3], b"00", b"1", b"1048576", b"1048576", b"1048576", b"1048577", fields[3] + b"0", b"9999999"))
    return b"\n".join(b" ".join(fields) for fields in lines)


MUTATIONS = (
    change_byte, change_byte, insert_byte, delete_byte,
    swap_lines, double_line, double_line, drop_line,
    copy_field, copy_field, change_length, change_length,
)


def random_mutated(rng):
    sheet = random_valid(rng)
    for _ in range(rng.choice((1, 1, 2, 3))):
        if sheet:
            sheet = rng.choice(MUTATIONS)(rng, sheet)
    return sheet


def random_cases():
    rng = random.Random(SEED)
    part("random sheets that pass")
    for _ in range(RANDOM_VALID):
        sheet = random_valid(rng)
        put(check(sheet), sheet)
    part("random sheets with one to three random changes")
    for _ in range(RANDOM_MUTATED):
        sheet = random_mutated(rng)
        put(check(sheet), sheet)


def main():
    print("# Test cases for sheet::check, made by tools/sheet_cases.py: ANSWER | SHEET.")
    assert check(KUZ, 1791) == "no 2 10 0"
    assert check(b"\x00" * 5000, 1791) == "no 2 10 0"
    hand_picked()
    random_cases()
    print("%d cases" % cases, file=sys.stderr)


if __name__ == "__main__":
    main()
