#!/usr/bin/env python3
"""Makes the messages of this folder, and the dumps of their records by dnspython (python3-dnspython of Debian, tried with 2.3.0).

    /usr/bin/python3 tests/messages/make.py

The messages are of this project's own making: octets are put together here, and dnspython writes none of them. For each
message NAME.hex it has its digits, and NAME.out what `zone_text message` must print. Lines of zone files and of questions in
NAME.out are dnspython's: each message is cut here into its sections by the list of parts that it was made of, and every
record is read by `dns.rdata.from_wire` and printed by its `to_text`. What dnspython has no line for, in the form that
docs/ZONE_TEXT.md describes, is written here by hand: the header, names of sections, EDNS, records without data, what is
rejected, and trailing octets. The messages that dnspython reads as a whole (`dns.message.from_wire`) are read so, too, and the
record sets are compared.

tests/messages.py uses the files and needs no dnspython.
"""

import pathlib

import dns.flags
import dns.message
import dns.name
import dns.rdata
import dns.rdataclass
import dns.rdatatype

HERE = pathlib.Path(__file__).resolve().parent
SECTIONS = ("answer", "authority", "additional")


def name(text):
    """The octets of a name without compression."""
    return b"".join(bytes([len(x)]) + x for x in text.encode().split(b".") if x) + b"\0"


def to(offset):
    """A compression pointer."""
    return (0xC000 + offset).to_bytes(2, "big")


def two(*numbers):
    """Numbers of two octets."""
    return b"".join(x.to_bytes(2, "big") for x in numbers)


def record(owner, kind, data, ttl=3600, of=1, length=None):
    """A record; another RDLENGTH than that of its RDATA may be given."""
    return owner + two(kind, of) + ttl.to_bytes(4, "big") + two(len(data) if length is None else length) + data


def long(*numbers):
    """Numbers of four octets."""
    return b"".join(x.to_bytes(4, "big") for x in numbers)


def class_text(number):
    """The name of a class."""
    return {1: "IN", 3: "CH", 4: "HS", 254: "NONE", 255: "ANY"}.get(number, f"CLASS{number}")


def record_line(message, offset):
    """The zone line of a record by dnspython."""
    owner, used = dns.name.from_wire(message, offset)
    at = offset + used
    kind, of, ttl, length = (int.from_bytes(message[at + a : at + b], "big") for a, b in ((0, 2), (2, 4), (4, 8), (8, 10)))
    # dnspython reads the data of a record of UPDATE's class NONE by the rules of class IN.
    data = dns.rdata.from_wire(1 if of == 254 else of, kind, message, at + 10, length)
    return f"{owner.to_text()} {ttl} {class_text(of)} {dns.rdatatype.to_text(kind)} {data.to_text()}".rstrip()


def question_line(message, offset):
    """The line of a question by dnspython."""
    owner, used = dns.name.from_wire(message, offset)
    kind, of = (int.from_bytes(message[offset + used + a :][:2], "big") for a in (0, 2))
    return f"; question: {owner.to_text()} {class_text(of)} {dns.rdatatype.to_text(kind)}"


# A part of a message: its section, its octets, and its line, or None where dnspython has it.
def message(identity, flags, words, parts, counts=None, end=()):
    """The octets of a message and its dump."""
    real = [sum(section == wanted for section, _, _ in parts) for wanted in ("question", *SECTIONS)]
    counts = counts or real
    octets = two(identity, flags, *counts) + b"".join(part for _, part, _ in parts)
    lines = [f"; id {identity}; {words}; " + ", ".join(f"{s} {n}" for s, n in zip(("question", *SECTIONS), counts))]
    offset, last = 12, "question"
    for section, part, line in parts:
        if section != last and section in SECTIONS:
            lines.append(f"; {section} section")
            last = section
        if line is None:
            line = question_line(octets, offset) if section == "question" else record_line(octets, offset)
        if line:
            lines.append(line.replace("OFFSET", str(offset)))
        offset += len(part)
    return octets, lines + list(end)


WWW, ROOT = name("www.example.com"), b"\0"
ASK = ("question", WWW + two(1, 1), None)


def messages():
    """Each message: its name, octets and dump, and whether dnspython reads it as a whole."""
    edns = record(ROOT, 41, two(10, 8) + bytes(range(8)), 0x8000, 1232)
    edns_line = "; EDNS: version 0, udp 1232, do, options 10:0001020304050607"
    response = "opcode QUERY; rcode NOERROR; flags: qr rd ra"
    yield "query", *message(1234, 0x0120, "opcode QUERY; rcode NOERROR; flags: rd ad", [ASK]), True
    yield "response", *message(1234, 0x8580, "opcode QUERY; rcode NOERROR; flags: qr aa rd ra", [
        ("question", name("example.com") + two(15, 1), None),
        ("answer", record(to(12), 15, two(10) + b"\4mail" + to(12)), None),
        ("answer", record(to(12), 15, two(20) + b"\5M\\.;l" + to(12)), None),
        ("additional", record(to(43), 1, b"\xc0\0\2\1", 300), None),
        ("additional", record(to(43), 28, bytes.fromhex("20010db8000000000000000000000025"), 300), None),
    ]), True
    yield "chain", *message(7, 0x8180, response, [
        ASK,
        ("answer", record(to(12), 5, b"\3cdn" + to(16), 60), None),
        ("answer", record(to(45), 5, b"\1a\3net" + to(24), 60), None),
        ("answer", record(to(63), 1, b"\xc6\x33\x64\7", 30), None),
        ("answer", record(to(63), 1, b"\xc6\x33\x64\x08", 30), None),
    ]), True
    yield "denial", *message(65535, 0x8583, "opcode QUERY; rcode NXDOMAIN; flags: qr aa rd ra", [
        ASK,
        ("authority", record(to(16), 6, b"\2ns" + to(16) + b"\4host" + to(16) + long(2026112901, 7200, 600, 3600000, 60), 60), None),
    ]), True
    yield "edns", *message(2, 0x8190, response + " cd", [
        ("question", name("example.com") + two(257, 1), None),
        ("answer", record(to(12), 257, b"\0\5issueca.example"), None),
        ("answer", record(to(12), 16, b"\5v=x \"\2\xff;"), None),
        ("answer", record(to(12), 65, two(1) + b"\0" + two(1, 3) + b"\2h2"), None),
        ("additional", edns, edns_line),
    ]), True
    yield "update", *message(99, 0x2800, "opcode UPDATE; rcode NOERROR; flags:", [
        ("question", name("example.com") + two(6, 1), None),
        ("answer", record(b"\3www" + to(12), 1, b"", 0, 255), "; no data: www.example.com. 0 ANY A"),
        ("answer", record(b"\3new" + to(12), 255, b"", 0, 254), "; no data: new.example.com. 0 NONE ANY"),
        ("authority", record(to(29), 1, b"", 0, 255), "; no data: www.example.com. 0 ANY A"),
        ("authority", record(to(29), 1, b"\xc0\0\2\1", 0, 254), None),
        ("authority", record(to(29), 1, b"\xc0\0\2\2", 300), None),
    ]), False
    yield "damaged", *message(1234, 0x8180, response, [
        ("question", name("example.com") + two(15, 1), None),
        ("answer", record(to(12), 15, two(10) + b"\4mail" + to(12)), None),
        ("answer", record(to(12), 15, two(20) + b"\5"), "; refused: answer 1 at offset OFFSET: incorrect length of record data: read 11, length 3"),
        ("answer", record(to(12), 15, two(30) + b"\5mail2" + to(12)), None),
    ]), False
    yield "past_end", *message(3, 0x8180, response, [
        ASK,
        ("answer", record(to(12), 1, b"\xc0\0\2\1"), None),
        ("answer", record(to(12), 1, b"\xc0\0\2\2", length=5), "; refused: answer 1 at offset OFFSET: RDLENGTH is 5, and 4 octets are left"),
    ]), False
    yield "counts", *message(4, 0x8180, response, [
        ASK,
        ("answer", record(to(12), 1, b"\xc0\0\2\1"), None),
        ("authority", b"", "; refused: authority 0 at offset OFFSET: invalid domain name"),
    ], [1, 1, 2, 0]), False
    yield "trailing", *message(5, 0x8380, "opcode QUERY; rcode NOERROR; flags: qr tc rd ra", [
        ASK,
        ("answer", record(to(12), 65280, b"\xab\xcd", 2**32 - 1), None),
        ("answer", record(to(12), 65281, b"", 0, 32), None),
        ("answer", record(to(12), 16, b"\1a\0", 0, 3), None),
        ("", b"\xff\xff\xff", ""),
    ], end=["; trailing octets: ffffff"]), False


def as_whole(octets):
    """The lines of the records of a message that dnspython reads as a whole."""
    read = dns.message.from_wire(octets)
    return sorted(
        f"{rrset.name} {rrset.ttl} {class_text(rrset.rdclass)} {dns.rdatatype.to_text(rrset.rdtype)} {data.to_text()}"
        for section in (read.answer, read.authority, read.additional) for rrset in section for data in rrset
    )


def main():
    """Writes the files."""
    for title, octets, lines, is_whole in messages():
        if is_whole:
            assert as_whole(octets) == sorted(line for line in lines if not line.startswith(";")), title
        (HERE / f"{title}.hex").write_text(octets.hex() + "\n")
        (HERE / f"{title}.out").write_text("".join(line + "\n" for line in lines))
        print(title, len(octets))


if __name__ == "__main__":
    main()
