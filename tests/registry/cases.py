#!/usr/bin/env python3
"""Writes octets.tsv: RDATA of each type of the registry that is accepted and that is rejected, by the formats of the RFCs.

    tests/registry/cases.py                       writes the cases; then
    tests/registry/peers.py WORK_DIR octets       asks other libraries about them

What is wanted is said here, by hand, for each case; model.py, which is written from the table of rows, must say the same. A message has
a header, the question `example.com. IN A` at offset 12, and a record whose owner is the root, so RDATA begins at offset 40.
"""
import pathlib

HERE = pathlib.Path(__file__).resolve().parent
HEADER = bytes.fromhex("000084000001000100000000")
EXAMPLE = b"\7example\3com\0"
BEFORE = HEADER + EXAMPLE + b"\0\1\0\1"
START = len(BEFORE) + 11
TO_EXAMPLE = b"\xc0\x0c"
ROWS = []
NAMES = {}


def load_names():
    """The names of the types."""
    for line in (HERE.parent / "type_names.tsv").read_text(encoding="utf-8").splitlines():
        if not line.startswith("#"):
            name, kind = line.split("\t")
            NAMES.setdefault(int(kind), name)


def octets(text):
    """Octets of hexadecimal digits, in which N is the name example.com, R the root and P a pointer to example.com."""
    text = text.replace("N", EXAMPLE.hex()).replace("R", "00").replace("P", TO_EXAMPLE.hex())
    return bytes.fromhex(text.replace(" ", ""))


def case(kind, words, rdata, wanted, after=b""):
    """One case: RDATA, whether it is wanted, and octets that follow it in the message."""
    rdata = octets(rdata) if isinstance(rdata, str) else rdata
    head = BEFORE + b"\0" + kind.to_bytes(2, "big") + b"\0\1\0\0\x0e\x10" + len(rdata).to_bytes(2, "big")
    assert len(head) == START
    message = head + rdata + after
    ROWS.append([str(kind), words, message.hex(), str(START), str(len(rdata)), "ok" if wanted else "rejected"])


def ok(kind, words, rdata):
    """A case that is accepted."""
    case(kind, words, rdata, True)


def bad(kind, words, rdata):
    """A case that is rejected."""
    case(kind, words, rdata, False)


def cut(kind, rdata, good=(), more=False, words="example", open_lengths=()):
    """A good example, all its truncations, of which those of the lengths `good` are accepted, and one octet 0x01 more.

    Lengths that no RFC decides are left out.
    """
    rdata = octets(rdata)
    ok(kind, words, rdata)
    for length in set(range(len(rdata))) - set(open_lengths):
        case(kind, f"{words}, the first {length} of {len(rdata)} octets", rdata[:length], length in good)
    case(kind, f"{words}, and one octet 01 more", rdata + b"\1", more)
    if rdata and len(rdata) - 1 not in {*good, *open_lengths}:
        case(kind, f"{words}, whole in the message, RDLENGTH one less", rdata[:-1], False, rdata[-1:])


# 255 octets, 256 octets, a label of 63 octets.
LONG = (b"\x3f" + b"a" * 63) * 3 + b"\x3d" + b"b" * 61 + b"\0"
TOO_LONG = (b"\x3f" + b"a" * 63) * 3 + b"\x3e" + b"b" * 62 + b"\0"
assert len(LONG) == 255 and len(TOO_LONG) == 256


def names(kind, before, after, compressed, which=""):
    """The name of a type, between octets: what every name may be and may not be, and whether compression pointers are allowed."""
    before, after = octets(before), octets(after)
    here = START + len(before)

    def named(words, name, wanted):
        case(kind, which + words, before + name + after, wanted)

    named("the root", b"\0", True)
    named("a name of 255 octets", LONG, True)
    named("a name of 256 octets", TOO_LONG, False)
    named("a label with every kind of octet", b"\4\0\xff.\\\0", True)
    named("a length octet 0x40", b"\x40" + b"a" * 64 + b"\0", False)
    named("a length octet 0x80", b"\x80" + b"a" * 64 + b"\0", False)
    named("a compressed name", TO_EXAMPLE, compressed)
    named("a label and a compressed name", b"\1a" + TO_EXAMPLE, compressed)
    named("a pointer into a name, com", b"\xc0\x14", compressed)
    named("a pointer to itself", (0xC000 + here).to_bytes(2, "big"), False)
    named("a pointer to its own first label", b"\1a" + (0xC000 + here).to_bytes(2, "big"), False)
    named("a pointer past the message", b"\xff\xff", False)


def chained(kind, rdata, wanted):
    """Two names, of which the second one points to the first."""
    case(kind, "the second name points into the first", rdata, wanted)


BITMAPS = [
    # What it is, the octets, whether they are a bitmap (RFC 4034, 4.1.2).
    ("one window, one octet", "00 01 40", True),
    ("one window, 32 octets", "00 20" + "00" * 31 + "01", True),
    ("one window, 33 octets", "00 21" + "00" * 32 + "01", False),
    ("a window of no octets", "00 00", False),
    ("a window of no octets before another one", "00 00 01 01 40", False),
    ("a zero at the end of a window", "00 02 40 00", False),
    ("a window of a zero alone", "00 01 00", False),
    ("a zero at the end of the first of two windows", "00 02 40 00 01 01 40", False),
    ("two windows, rising", "00 01 40 01 01 40", True),
    ("windows 0 and 255", "00 01 40 ff 20" + "00" * 31 + "01", True),
    ("two windows, falling", "01 01 40 00 01 40", False),
    ("the same window twice", "00 01 40 00 01 20", False),
    ("three windows, the third one falling", "00 01 40 02 01 40 01 01 40", False),
    ("window 1 alone", "01 01 40", True),
    ("a window that is longer than what is left", "00 02 40", False),
    ("a window number alone", "00", False),
    ("a second window number alone", "00 01 40 01", False),
    ("a second window without its octets", "00 01 40 01 01", False),
    ("bit 0 and pseudo-types are set", "00 20 80 00 00 00 00 40" + "00" * 25 + "01", True),
]


def one_name():
    for kind in (3, 4, 7, 8, 9):
        cut(kind, "N")
        names(kind, "", "", True)
    cut(23, "N")
    names(23, "", "", False)
    cut(39, "N")
    names(39, "", "", False)


def types_with_structs():
    """Types that the library has a struct for, by their RFCs."""
    cut(1, "c0000201")
    cut(28, "20010db8000000000000000000000001")
    for kind in (2, 5, 12):
        cut(kind, "N")
        names(kind, "", "", True)
    numbers = "00000001 00001c20 00000e10 00127500 0000012c"
    cut(6, "N 01 61 00" + numbers)
    names(6, "", "N" + numbers, True, "first name: ")
    names(6, "N", numbers, True, "second name: ")
    chained(6, "N c028" + numbers, True)
    cut(10, "01020304", good=range(4), more=True)
    cut(13, "03 616263 02 6465")
    ok(13, "two empty strings", "00 00")
    bad(13, "three strings", "01 61 01 62 01 63")
    cut(15, "000a N")
    names(15, "000a", "", True)
    cut(16, "03 616263 00 01 64", good={4, 5})
    ok(16, "an empty string", "00")
    ok(16, "255 octets", bytes([255]) + b"a" * 255)
    cut(33, "0001 0002 13c4 N")
    names(33, "0001 0002 13c4", "", True)
    cut(35, "0064 000a 01 73 07 5349502b443255 00 N")
    names(35, "0064 000a 01 73 00 00", "", True)
    ok(35, "no flags", "0064 000a 00 00 00 R")
    bad(35, "flags that are no letters and digits", "0064 000a 01 2d 00 00 R")
    cut(37, "0001 3039 08 010203", good={6, 7}, more=True, open_lengths={5})
    cut(44, "01 c8 010203", good={3, 4}, more=True, open_lengths={2})
    ok(44, "SHA-1, 20 octets", "01 01" + "12" * 20)
    for kind in (52, 53):
        cut(kind, "03 01 01 010203", good={4, 5}, more=True, open_lengths={3})
    cut(61, "010203", good={1, 2}, more=True, open_lengths={0})
    cut(62, "00000042 0003 0004 60000008", good={6})
    for words, bits, wanted in BITMAPS:
        case(62, words, octets("00000042 0003" + bits), wanted)
    for kind in (64, 65):
        cut(kind, "0001 N 0003 0002 0035 029b 0003 616263", good={15, 21})
        names(kind, "0001", "0003 0002 0035", False)
        ok(kind, "priority 0", "0000 N")
        bad(kind, "the same key twice", "0001 R 029b 0000 029b 0000")
        bad(kind, "falling keys", "0001 R 029b 0000 0003 0002 0035")
    cut(257, "00 05 6973737565 6361", good={7, 8}, more=True)
    bad(257, "no tag", "00 00 6361")
    bad(257, "a tag with a hyphen", "00 03 612d62 6361")
    ok(257, "a tag of one letter, no value", "80 01 61")


def two_names():
    for kind in (14, 17):
        cut(kind, "N 01 61 00")
        names(kind, "", "N", True, "first name: ")
        names(kind, "N", "", True, "second name: ")
        chained(kind, "N c028", True)
    cut(26, "0032 N 01 61 00")
    names(26, "0001", "N", True, "first name: ")
    names(26, "0001 N", "", True, "second name: ")
    chained(26, "0001 N c02a", True)
    cut(58, "N 01 61 00")
    names(58, "", "N", False, "first name: ")
    names(58, "N", "", False, "second name: ")
    chained(58, "N c028", False)


def number_and_name():
    for kind, compressed in ((18, True), (21, True), (36, False), (107, False)):
        cut(kind, "0001 N")
        ok(kind, "the greatest number", "ffff R")
        names(kind, "000a", "", compressed)
    cut(66, "003b 01 14ef N")
    ok(66, "the greatest numbers", "ffff ff ffff R")
    names(66, "003b 01 14ef", "", False)


def services_and_strings():
    cut(11, "c0000201 06 0102", good={5, 6}, more=True)
    ok(11, "a bitmap that ends in zeros", "c0000201 06 4000 0000")
    ok(11, "the ports 0 to 65535", "c0000201 11" + "ff" * 8192)
    cut(19, "0c 333131303631373030393536")
    for words, digits, wanted in (
        ("no digits", b"", False),
        ("three digits", b"311", False),
        ("four digits", b"3110", True),
        ("255 digits", b"3" * 255, True),
        ("four digits and a letter", b"3110a", False),
        ("the character before 0", b"311/", False),
        ("the character after 9", b"311:", False),
        ("a blank", b"3110 ", False),
    ):
        case(19, words, bytes([len(digits)]) + digits, wanted)
    bad(19, "two strings", "04 33313130 04 33313130")
    cut(20, "02 3135 03 303034", good={3})
    ok(20, "an empty address", "00")
    ok(20, "two empty strings", "00 00")
    bad(20, "three strings", "01 31 01 32 01 33")
    bad(20, "three strings, the third one empty", "01 31 01 32 00")
    ok(20, "255 octets each", bytes([255]) + b"1" * 255 + bytes([255]) + b"2" * 255)
    cut(27, "09 2d33322e36383832 30 08 3131362e38363532 04 31302e30")
    bad(27, "four strings", "01 31 01 32 01 33 01 34")
    for kind in (56, 99, 258, 261, 262, 263):
        cut(kind, "03 616263 00 01 64", good={4, 5}, more=False)
        ok(kind, "an empty string", "00")
        ok(kind, "255 octets", bytes([255]) + b"a" * 255)
        bad(kind, "a string of 255 octets that has 254", bytes([255]) + b"a" * 254)


def octets_alone():
    for kind, size in ((22, 20), (31, 8), (32, 8), (49, 35), (67, 8), (68, 8)):
        cut(kind, "39" * size, good=range(1, size), more=True)
    cut(34, "00 39246f000e7c9c", good=range(2, 8), more=True)
    ok(34, "format 1, digits", "01 31 32 33")
    cut(40, "01 02 03 0405", good={3, 4}, more=True)
    for kind, size in ((108, 6), (109, 8), (264, 8)):
        cut(kind, "00005e00532a0102"[: 2 * size])
    cut(104, "000a 0014 4fff ff20 ee64")
    cut(105, "000a 0a010200")
    cut(106, "000a 2001 0db8 1140 1000")
    cut(128, "")
    bad(128, "a name", "N")


def signatures():
    for kind, compressed in ((24, True), (46, False)):
        head = "0001 05 05 00015180 3e7c9dd7 3e5510d7 0a52"
        cut(kind, head + "N a0907553", good=range(18 + 13 + 1, 18 + 13 + 4), more=True)
        bad(kind, "no signature", head + "N")
        ok(kind, "one octet of signature, which is 0", head + "N 00")
        ok(kind, "the greatest numbers", "ffff ff ff ffffffff ffffffff ffffffff ffff R 01")
        ok(kind, "a signer with more labels than Labels says", "0001 05 01 00015180 3e7c9dd7 3e5510d7 0a52 N 01")
        names(kind, head, "01", compressed)


def keys():
    for kind in (48, 60):
        cut(kind, "0101 03 05 01020304", good={5, 6, 7}, more=True)
        ok(kind, "protocol 0 and an octet 0", "0000 00 00 00")
    cut(57, "0000 03 05 01020304", good={5, 6, 7}, more=True)
    cut(25, "0100 03 05 01020304", good={5, 6, 7}, more=True)
    ok(25, "the flag bits of no key, and none", "c000 03 00")
    bad(25, "the flag bits of no key, and a key", "c000 03 05 01")
    bad(25, "flag bit 0 alone, and no key", "8000 03 05")
    bad(25, "flag bit 1 alone, and no key", "4000 03 05")
    ok(25, "flag bit 0 alone, and a key", "8000 03 05 01")
    ok(25, "all flag bits, and no key", "ffff ff ff")


def digests():
    for kind in (43, 59, 32768, 32769):
        cut(kind, "ec45 05 c8 2bb183af", good={5, 6, 7}, more=True)
        ok(kind, "SHA-1, 20 octets", "ec45 05 01" + "2b" * 20)
        ok(kind, "SHA-256, 32 octets", "ec45 05 02" + "2b" * 32)
        ok(kind, "SHA-384, 48 octets", "ec45 05 04" + "2b" * 48)
        ok(kind, "digest type 0, one octet 0 (RFC 8078, 4)", "0000 00 00 00")
    cut(63, "7848b8ef 01 c8 000102030405060708090a0b", good=(), more=True, words="12 octets of digest")
    bad(63, "11 octets of digest", "7848b8ef 01 c8 000102030405060708090a")
    ok(63, "SHA384, 48 octets", "7848b8ef 01 01" + "c6" * 48)
    ok(63, "SHA512, 64 octets", "7848b8ef 01 02" + "c6" * 64)


def lengths_that_rows_leave_open():
    """Rules beyond the format, which BIND has: rows do not have them (differences.tsv has the words)."""
    for kind in (43, 59, 32768, 32769):
        ok(kind, "SHA-1, 19 octets", "ec45 05 01" + "2b" * 19)
        ok(kind, "SHA-1, 21 octets", "ec45 05 01" + "2b" * 21)
        ok(kind, "SHA-256, 31 octets", "ec45 05 02" + "2b" * 31)
        ok(kind, "SHA-256, 33 octets", "ec45 05 02" + "2b" * 33)
        ok(kind, "SHA-384, 47 octets", "ec45 05 04" + "2b" * 47)
        ok(kind, "SHA-384, 49 octets", "ec45 05 04" + "2b" * 49)
        ok(kind, "GOST R 34.11-94, 32 octets", "ec45 05 03" + "2b" * 32)
    ok(63, "scheme 241, SHA384, 20 octets (RFC 8976, A.3)", "7848b8ef f1 01 e1846540e33a9e41 89792d18d5d131f6 05fc283e")
    ok(63, "SHA384, 47 octets", "7848b8ef 01 01" + "c6" * 47)
    ok(63, "SHA384, 49 octets", "7848b8ef 01 01" + "c6" * 49)
    ok(57, "flags 1", "0001 03 05 01")
    ok(34, "format 1, a letter", "01 31 61")
    ok(42, "family 3, a zero octet at the end", "0003 20 02 0100")
    ok(11, "a bitmap of 8193 octets", "c0000201 06" + "00" * 8192 + "01")


def location():
    cut(29, "00 12 16 13 89172dd0 70be15f0 0098 8d20")
    for words, octet, wanted in (
        ("0", "00", True),
        ("base 9, exponent 9", "99", True),
        ("base 9, exponent 10", "9a", False),
        ("base 10, exponent 0", "a0", False),
        ("base 1, exponent 15", "1f", False),
        ("base 15, exponent 15", "ff", False),
        ("base 1, exponent 0", "10", True),
        ("base 0, exponent 1", "01", False),
        ("base 0, exponent 9", "09", False),
    ):
        ok_or = ok if wanted else bad
        ok_or(29, f"size: {words}", f"00 {octet} 16 13 80000000 80000000 00989680")
        ok_or(29, f"horizontal precision: {words}", f"00 12 {octet} 13 80000000 80000000 00989680")
        ok_or(29, f"vertical precision: {words}", f"00 12 16 {octet} 80000000 80000000 00989680")
    half = 1 << 31
    for words, far, at in (("latitude", 324000000, 0), ("longitude", 648000000, 1)):
        for number, wanted in ((half + far, True), (half + far + 1, False), (half - far, True), (half - far - 1, False)):
            numbers = [half, half]
            numbers[at] = number
            rdata = octets("00 12 16 13") + b"".join(x.to_bytes(4, "big") for x in numbers) + octets("00989680")
            case(29, f"{words} 2^31 {number - half:+}", rdata, wanted)
        for number in (0, (1 << 32) - 1):
            numbers = [half, half]
            numbers[at] = number
            rdata = octets("00 12 16 13") + b"".join(x.to_bytes(4, "big") for x in numbers) + octets("00989680")
            case(29, f"{words} {number}", rdata, False)
    ok(29, "altitude 0", "00 12 16 13 80000000 80000000 00000000")
    ok(29, "altitude 4294967295", "00 12 16 13 80000000 80000000 ffffffff")
    bad(29, "version 1", "01 12 16 13 80000000 80000000 00989680")
    bad(29, "version 255", "ff 12 16 13 80000000 80000000 00989680")
    bad(29, "version 1, and no more", "01")


def next_records():
    cut(30, "N 40 01 00 82", good={14, 15, 17}, more=True)
    names(30, "", "40", True)
    ok(30, "one octet", "R 02")
    bad(30, "bit 0 is set", "R 80 01")
    bad(30, "bit 0 is set, and others", "R c0 00 02")
    bad(30, "one octet 0", "R 00")
    bad(30, "a zero at the end", "R 40 01 00 82 00")
    ok(30, "16 octets", "R" + "00" * 15 + "01")
    bad(30, "16 octets, the last one 0", "R 40" + "00" * 15)
    bad(30, "17 octets", "R" + "00" * 16 + "01")
    cut(47, "N 0006 400100000003", good={16 + i for i in ()}, more=False)
    names(47, "", "000140", False)
    bad(47, "no window", "R")
    cut(50, "01 01 000c 04 aabbccdd 14" + "17" * 20 + "0006 400100000003", good={30}, more=False)
    head = "c8 00 000c 00 01 17"
    ok(50, "no salt, a hash of one octet, no window", head)
    ok(50, "hash algorithm 1, and a hash of one octet", "01 00 000c 00 01 17")
    bad(50, "a hash of no octets", "c8 00 000c 00 00 0001 40")
    bad(50, "a hash of no octets, no window", "c8 00 000c 00 00")
    ok(50, "salt and hash of 255 octets", "c8 00 000c ff" + "aa" * 255 + "ff" + "17" * 255)
    ok(50, "the greatest numbers", "ff ff ffff 00 01 17")
    for words, bits, wanted in BITMAPS:
        case(47, words, octets("R" + bits), wanted)
        case(50, words, octets(head + bits), wanted)
    cut(51, "01 00 000c 04 aabbccdd")
    ok(51, "no salt", "01 00 000c 00")
    ok(51, "salt of 255 octets", "ff ff ffff ff" + "aa" * 255)
    bad(51, "salt of 255 octets that has 254", "ff ff ffff ff" + "aa" * 254)


def prefixes():
    for length in (0, 1, 7, 8, 9, 64, 120, 121, 127, 128):
        size = (128 - length + 7) // 8
        suffix = b"\0" * min(size, 1) + b"\x11" * (size - 1)
        name = EXAMPLE if length else b""
        rdata = bytes([length]) + suffix + name
        ok(38, f"prefix length {length}", rdata)
        bad(38, f"prefix length {length}, one octet less", rdata[:-1])
        if size:
            # The octets of the name are read one too early, or nothing is there.
            bad(38, f"prefix length {length}, one octet of the suffix less", bytes([length]) + suffix[1:] + (b"\0" if length else b""))
        bad(38, f"prefix length {length}, one octet more", rdata + b"\1")
        if length:
            bad(38, f"prefix length {length}, no name", bytes([length]) + suffix)
    ok(38, "prefix length 1, the pad bit is set (ignored on reception)", "01" + "ff" * 16 + "R")
    ok(38, "prefix length 127, all pad bits are set", "7f ff R")
    ok(38, "prefix length 128, the root", "80 R")
    bad(38, "prefix length 0, and a name", "00" + "11" * 16 + "N")
    bad(38, "prefix length 0, and the root", "00" + "11" * 16 + "R")
    bad(38, "prefix length 129", "81 R")
    bad(38, "prefix length 129, a suffix octet", "81 00 R")
    bad(38, "prefix length 255", "ff R")
    cut(38, "40 0000000000000001 N")
    cut(38, "00 20010db8000000000000000000000001", words="prefix length 0, an address")
    names(38, "78 01", "", False, "prefix length 120: ")
    names(38, "80", "", False, "prefix length 128: ")


def prefix_lists():
    cut(42, "0001 15 03 c0a820 0001 1c 84 c0a826f0 0002 20 04 20010db8", good={0, 7, 15}, more=False)
    for words, rdata, wanted in (
        ("IPv4, prefix 0, no octets", "0001 00 00", True),
        ("IPv4, negated, no octets", "0001 00 80", True),
        ("IPv4, prefix 32, four octets", "0001 20 04 c0a82001", True),
        ("IPv4, prefix 33", "0001 21 04 c0a82001", False),
        ("IPv4, prefix 255", "0001 ff 00", False),
        ("IPv4, five octets", "0001 20 05 c0a8200101", False),
        ("IPv4, negated, five octets", "0001 20 85 c0a8200101", False),
        ("IPv4, a zero octet at the end", "0001 15 04 c0a82000", False),
        ("IPv4, one zero octet", "0001 00 01 00", False),
        ("IPv4, negated, a zero octet at the end", "0001 15 84 c0a82000", False),
        ("IPv4, bits after the prefix", "0001 08 04 c0a8ffff", True),
        ("IPv4, fewer octets than the prefix has", "0001 20 01 0a", True),
        ("IPv6, prefix 0, no octets", "0002 00 00", True),
        ("IPv6, prefix 128, 16 octets", "0002 80 10 20010db8000000000000000000000001", True),
        ("IPv6, prefix 129", "0002 81 10 20010db8000000000000000000000001", False),
        ("IPv6, 17 octets", "0002 80 11 20010db800000000000000000000000101", False),
        ("IPv6, negated, 17 octets", "0002 80 91 20010db800000000000000000000000101", False),
        ("IPv6, a zero octet at the end", "0002 20 05 20010db800", False),
        ("family 0, no octets", "0000 00 00", True),
        ("family 3, prefix 255, octets", "0003 ff 02 0a01", True),
        ("family 3, 127 octets", "0003 20 7f" + "01" * 127, True),
        ("family 65535, negated", "ffff 10 81 01", True),
        ("octets that are not there", "0001 20 04 c0a820", False),
        ("127 octets that are not there", "0003 20 7f" + "01" * 126, False),
        ("a header that is not there", "0001 20 01 0a 0001 20", False),
        ("300 items", "0001 08 01 0a" * 300, True),
    ):
        case(42, words, octets(rdata), wanted)


def gateways():
    cut(45, "0a 00 02 010203", good={3, 4, 5}, more=True, words="no gateway")
    cut(45, "0a 01 02 c0000226 0102", good={7, 8}, more=True, words="IPv4")
    cut(45, "0a 02 02 20010db8000080020000000020000001 0102", good={19, 20}, more=True, words="IPv6")
    cut(45, "0a 03 02 N 0102", good={16, 17}, more=True, words="a name")
    ok(45, "algorithm 0, no gateway, no key", "0a 00 00")
    ok(45, "algorithm 0, IPv4, no key", "0a 01 00 c0000226")
    for kind in (4, 127, 128, 255):
        bad(45, f"gateway type {kind}", bytes([10, kind, 2, 0, 1]))
    names(45, "0a 03 02", "01", False, "a key: ")
    names(45, "0a 03 00", "", False, "no key: ")
    cut(260, "0a 00", words="no relay")
    cut(260, "0a 01 cb00710f", words="IPv4")
    cut(260, "0a 02 20010db8000000000000000000000015", words="IPv6")
    cut(260, "80 03 N", words="a name")
    ok(260, "discovery optional, no relay", "0a 80")
    ok(260, "discovery optional, IPv4", "0a 81 cb00710f")
    ok(260, "discovery optional, IPv6", "0a 82 20010db8000000000000000000000015")
    ok(260, "discovery optional, a name", "0a 83 N")
    bad(260, "discovery optional, IPv4, three octets", "0a 81 cb0071")
    for kind in (4, 127, 0x84, 0xFF):
        bad(260, f"relay type {kind & 127}, discovery optional {kind >> 7}", bytes([10, kind]))
        bad(260, f"relay type {kind & 127}, discovery optional {kind >> 7}, an octet", bytes([10, kind, 0]))
    names(260, "0a 03", "", False)
    names(260, "0a 83", "", False, "discovery optional: ")


def host_identity():
    cut(55, "02 02 0003 2001 030102 N 01 61 00", good={9, 22}, more=False)
    ok(55, "no servers", "01 02 0001 20 03")
    bad(55, "no HIT", "00 02 0001 03")
    bad(55, "no HIT, a server", "00 02 0001 03 R")
    bad(55, "no key", "01 02 0000 20")
    bad(55, "no key, a server", "01 02 0000 20 R")
    bad(55, "neither HIT nor key", "00 02 0000")
    bad(55, "a HIT that is longer than what is left", "04 02 0001 20 03")
    bad(55, "a key that is longer than what is left", "01 02 0003 20 03 04")
    ok(55, "a HIT of 255 octets", "ff 02 0001" + "20" * 255 + "03")
    ok(55, "a key of 256 octets", "01 02 0100 20" + "03" * 256)
    bad(55, "a key of 256 octets that has 255", "01 02 0100 20" + "03" * 255)
    ok(55, "three servers", "01 02 0001 20 03 R N R")
    names(55, "01 02 0001 20 03", "", False, "a server: ")
    names(55, "01 02 0001 20 03 N", "", False, "after a server: ")


def transactions():
    cut(249, "N 00000001 00000002 0003 0000 0002 aabb 0003 010203")
    ok(249, "no key, no other data", "R 00000001 00000002 0003 ffff 0000 0000")
    bad(249, "a key that is longer than what is left", "R 00000001 00000002 0003 0000 0003 aabb 0000")
    bad(249, "a key of 65535 octets that is not there", "R 00000001 00000002 0003 0000 ffff aabb 0000")
    bad(249, "other data that is longer than what is left", "R 00000001 00000002 0003 0000 0001 aa 0002 bb")
    names(249, "", "00000001 00000002 0003 0000 0000 0000", False)
    cut(250, "N 000032e40700 012c 0002 aabb 0001 0012 0006 000032e40701")
    ok(250, "no MAC, no other data", "R ffffffffffff ffff 0000 ffff ffff 0000")
    ok(250, "a MAC of 32 octets", "R 000032e40700 012c 0020" + "aa" * 32 + "0001 0000 0000")
    ok(250, "other data of one octet", "R 000032e40700 012c 0000 0001 0000 0001 00")
    bad(250, "a MAC that is longer than what is left", "R 000032e40700 012c 0007 aabb 0001 0000 0000")
    bad(250, "a MAC of 65535 octets that is not there", "R 000032e40700 012c ffff aabb 0001 0000 0000")
    bad(250, "other data of 65535 octets that is not there", "R 000032e40700 012c 0000 0001 0000 ffff")
    names(250, "", "000000000001 0003 0000 0001 0000 0000", False)


def targets():
    cut(256, "000a 0001 6674703a", good={5, 6, 7}, more=True)
    bad(256, "no target", "ffff ffff")
    ok(256, "a target of 300 octets", "000a 0001" + "61" * 300)
    cut(259, "00000001 00000002 01 03 612f62 0102", good={13, 14}, more=True)
    ok(259, "no media type, no data", "ffffffff ffffffff ff 00")
    bad(259, "a media type that is longer than what is left", "00000001 00000002 01 04 612f62")


def main():
    load_names()
    for part in (
        types_with_structs, one_name, two_names, number_and_name, services_and_strings, octets_alone, signatures, keys, digests,
        lengths_that_rows_leave_open, location, next_records, prefixes, prefix_lists, gateways, host_identity, transactions, targets,
    ):
        part()
    rows, seen = [], set()
    for row in ROWS:
        key = (row[0], row[2], row[4])
        if key not in seen:
            seen.add(key)
            rows.append(row)
    assert len({(row[0], row[1]) for row in rows}) == len(rows), "two cases have the same words"
    rows.sort(key=lambda row: int(row[0]))
    head = [
        "# RDATA of each type, accepted and rejected: the type's number; what it is; the message; the offset of the RDATA; RDLENGTH; what is",
        "# wanted, `ok` or `rejected`; what BIND (`dns_rdata_fromwire`, decompressing as named does) and ldns (`ldns_wire2rr`) return: `=` for the",
        "# same, else `ok`, `rejected` or `unknown`. Made by cases.py and peers.py.",
        "# Versions: ",
    ]
    (HERE / "octets.tsv").write_text("".join(line + "\n" for line in head + ["\t".join(row) for row in rows]), encoding="utf-8")
    print(len(rows))


if __name__ == "__main__":
    main()
