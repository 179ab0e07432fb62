#!/usr/bin/env python3
"""Makes the captures and the messages of this folder, and what `dnsdump` of c/, rust/ and python/ must print of them.

    /usr/bin/python3 tests/captures/make.py        (python3-dnspython of Debian, tried with 2.3.0)

- `messages/` has one DNS message a file: those of tests/messages, that of c/examples, and some damaged ones that are
  made here.
- ethernet.pcap, vlan.pcap, cooked.pcap and raw.pcap have the same messages in the same order, each in a packet of UDP,
  among packets that are no DNS over UDP. They differ in the link layer, in the order of octets in their headers, and in
  the unit of time. Of the message `cut` the packet had more octets, and the capture has the beginning alone.
- all.out, capture.err and folder.err are what must be printed: records; the counts of a capture, and of the folder.

No dnsdump is run here. The expected lines are made by dnspython and by hand:

- Each message is walked here by its header, by `dns.name.from_wire` for names, and by RDLENGTH. Owners and RDATA are
  printed by dnspython's `to_text`. RDATA of OPT is printed in the form of RFC 3597, section 5.
- A question or a record is damaged if dnspython finds no name there, or if the message ends before it does. The status
  is the one that c/include/dns_rdata.h has for it.
- RDATA is rejected if `dns.rdata.from_wire` rejects it. The status, the cause and the offset were found by hand, by the
  table at dns_rdata_check in c/include/dns_rdata.h: REJECTED. Two of these are accepted by dnspython: STRICTER.
- Counts are of the lines that were made so.
"""

import pathlib
import struct
import sys

import dns.exception
import dns.name
import dns.rdata
import dns.rdataclass
import dns.rdatatype

HERE = pathlib.Path(__file__).resolve().parent
TOP = HERE.parents[1]
sys.path.insert(0, str(TOP / "tests/messages"))
import make as parts  # noqa: E402

OPT, UPDATE, NONE, ANY = 41, 5, 254, 255
HEADER, QUESTION, RECORD = 32, 33, 34

# RDATA that is rejected, by its message and its index in it: the status, the cause, and the offset in the RDATA where
# reading stops.
REJECTED = {
    ("damaged", 1): (17, 0, 11),  # MX of three octets: the name goes on into the record that follows
    ("example", 6): (17, 0, 4),  # A of three octets
    ("rejected", 0): (17, 20, 2),  # MX, a compression pointer forward in its name
    ("rejected", 1): (17, 22, 7),  # CAA, "-" in its tag, and a value
    ("rejected", 2): (17, 24, 6),  # CSYNC, unknown flags, and a bitmap
    ("rejected", 3): (17, 0, 4),  # A of five octets
    ("rejected", 4): (18, 18, 0),  # ANY, which has no RDATA
    ("rejected", 6): (16, 16, 2),  # A of two octets, after which the message ends: RDLENGTH octets are read
}
STRICTER = {("rejected", 2), ("rejected", 4)}


def messages():
    """The names and the octets of the messages."""
    for path in sorted((TOP / "tests/messages").glob("*.hex")):
        yield path.stem, bytes.fromhex(path.read_text())
    yield "example", (TOP / "c/examples/response.bin").read_bytes()
    name, to, record, two = parts.name, parts.to, parts.record, parts.two
    question = name("example.com") + two(255, 1)
    header = two(77, 0x8180)
    yield "rejected", header + two(1, 7, 0, 0) + question + b"".join([
        record(to(12), 15, two(10) + to(4000)),
        record(to(12), 257, b"\0\5issu-ca"),
        record(to(12), 62, bytes.fromhex("00000001 0004 000140")),
        record(to(12), 1, b"\xc0\0\2\1\0"),
        record(to(12), 255, b"\1\2"),
        record(to(12), 16, b"\6the\tis"),
        record(to(12), 1, b"\xc0\0"),
    ])
    yield "no_header", b"\0\x07\x81\x80\0"
    yield "no_question", header + two(2, 0, 0, 0) + question + to(12) + b"\0"
    yield "loop", header + two(0, 2, 0, 0) + record(name("a"), 1, b"\xc0\0\2\1") + record(to(29), 1, b"\xc0\0\2\2")
    # A message of which the capture has no more than the first 50 octets.
    whole = header + two(1, 2, 0, 0) + question + record(to(12), 1, b"\xc0\0\2\1") + record(to(12), 1, b"\xc0\0\2\2")
    yield "cut", whole[:50]


class Dump:
    """What must be printed of messages."""

    def __init__(self):
        self.lines, self.messages, self.damaged, self.records, self.rejected = [], 0, 0, 0, 0
        self.statuses, self.types = {}, {}

    def message(self, title, octets):
        """Walks a message, whose records are printed."""
        self.messages += 1
        self.lines.append(f"; message {self.messages}, {len(octets)} octets")
        status = self.walked(title, octets)
        if status:
            self.damaged += 1
            self.statuses[status] = self.statuses.get(status, 0) + 1
            self.lines.append(f"; damaged: status {status}")

    def walked(self, title, octets):
        """Prints the records of a message; the status with which the walk ends, if it is damaged."""
        if len(octets) < 12:
            return HEADER
        flags, questions, *counts = struct.unpack(">2x5H", octets[:12])
        offset = 12
        for _ in range(questions):
            try:
                offset += dns.name.from_wire(octets, offset)[1] + 4
            except dns.exception.DNSException:
                return QUESTION
            if offset > len(octets):
                return QUESTION
        for index in range(sum(counts)):
            try:
                owner, used = dns.name.from_wire(octets, offset)
            except dns.exception.DNSException:
                return RECORD
            fixed = octets[offset + used :][:10]
            offset += used + 10
            if len(fixed) < 10 or len(octets) < offset + int.from_bytes(fixed[8:], "big"):
                return RECORD
            self.record((title, index), octets, flags >> 11 & 15, owner, fixed, offset)
            offset += int.from_bytes(fixed[8:], "big")
        return None

    def record(self, place, octets, opcode, owner, fixed, offset):
        """Prints a record."""
        kind, of, ttl, length = struct.unpack(">HHIH", fixed)
        self.records += 1
        type_text = dns.rdatatype.to_text(kind)
        line = f"{owner.to_text()} {ttl} {'IN' if of == 1 else f'CLASS{of}'} {type_text}"
        text = None
        if opcode == UPDATE and of in (NONE, ANY) and length == 0:
            self.lines.append(f"; no data: {line}")
            return
        try:
            text = self.text(octets, kind, of, offset, length)
        except dns.exception.DNSException as error:
            print(f"{place}: dnspython says {type(error).__name__}")
        assert (text is None) == (place in REJECTED and place not in STRICTER), place
        if place not in REJECTED:
            self.lines.append(f"{line} {text}".rstrip())
            return
        status, cause, read = REJECTED[place]
        self.rejected += 1
        self.statuses[status] = self.statuses.get(status, 0) + 1
        self.types[kind] = self.types.get(kind, 0) + 1
        self.lines.append(f"; rejected: {line}: status {status}, cause {cause}, offset {offset + read}")

    @staticmethod
    def text(octets, kind, of, offset, length):
        """The text of RDATA by dnspython, which reads a record of UPDATE's class NONE by the rules of class IN."""
        if kind == OPT:
            return dns.rdata.GenericRdata(of, kind, octets[offset : offset + length]).to_text()
        return dns.rdata.from_wire(1 if of == NONE else of, kind, octets, offset, length).to_text()

    def counts(self, others):
        """What is printed to standard error."""
        messages = f"{self.messages} messages, {self.damaged} of them damaged"
        yield f"{messages}; {others} packets without a message"
        yield f"{self.records} records, {self.rejected} of them rejected"
        for status in sorted(self.statuses):
            yield f"status {status}: {self.statuses[status]}"
        for kind in sorted(self.types):
            yield f"rejected {dns.rdatatype.to_text(kind)}: {self.types[kind]}"


def udp(octets, source=53, target=40000, length=None):
    """A datagram. Its checksum is 0, which in IPv4 means none."""
    return struct.pack(">4H", source, target, 8 + len(octets) if length is None else length, 0) + octets


def ipv4(octets, protocol=17, options=b"", fragment=0):
    """A packet of IPv4 from 192.0.2.53 to 192.0.2.1."""
    size = 20 + len(options)
    header = struct.pack(">BBHHHBBH", 0x40 | size // 4, 0, size + len(octets), 7, fragment, 64, protocol, 0)
    header += bytes((192, 0, 2, 53, 192, 0, 2, 1)) + options
    total = sum(struct.unpack(f">{size // 2}H", header))
    total = (total & 0xFFFF) + (total >> 16)
    return header[:10] + struct.pack(">H", ~(total + (total >> 16)) & 0xFFFF) + header[12:] + octets


def ipv6(octets, protocol=17):
    """A packet of IPv6 from 2001:db8::53 to 2001:db8::1."""
    prefix = bytes.fromhex("20010db8") + bytes(11)
    return struct.pack(">IHBB", 0x60000000, len(octets), protocol, 64) + prefix + b"\x53" + prefix + b"\1" + octets


def packets(ip):
    """The packets of a capture, and how many octets of each it has. `ip` makes the one around a datagram."""
    found = []
    for i, (_, octets) in enumerate(messages()):
        found.append((ip(i, udp(octets) if i % 2 else udp(octets, 40000, 53)), None))
    last, _ = found.pop()
    # The message `cut`, whose datagram was 200 octets long.
    cut = ip(len(found), udp(list(messages())[-1][1], length=200))
    found.append((cut, len(cut)))
    others = [
        ipv4(udp(b"\x23" * 48, 123, 123)),
        ipv4(b"\0\x35\x9c\x40" + bytes(40), protocol=6),
        ipv4(udp(b"\0" * 20), fragment=100),
        ipv6(udp(b"\0" * 20), protocol=58),
        ipv4(udp(b""), options=b"\1\1\1\0")[:22],
        ipv4(udp(b"\0" * 20, length=7)),
        b"\x45",
    ]
    for i, other in enumerate(others):
        found.insert(2 * i, (other, None))
    return found, len(others)


def linked(link, ip, tagged):
    """A packet with the header of the link layer before it. Frames of Ethernet are padded to 60 octets."""
    kind = b"\x86\xdd" if ip[0] >> 4 == 6 else b"\x08\0"
    if link == 1:
        tag = b"\x81\0\0\x2a" if tagged else b""
        return (bytes.fromhex("020000000001 020000000002") + tag + kind + ip).ljust(60, b"\0")
    return struct.pack(">HHH", 0, 1, 6) + bytes.fromhex("020000000002 0000") + kind + ip if link == 113 else ip


def capture(name, link, order, magic, tagged, ip):
    """Writes a capture; how many of its packets are no message."""
    octets = struct.pack(order + "IHHiIII", magic, 2, 4, 0, 0, 65535, link)
    found, others = packets(ip)
    if link != 101:
        # Another protocol than IP: a frame of ARP in Ethernet.
        found.append((ipv4(udp(b"\0" * 20)), "arp"))
    else:
        found.append((b"\x50" + ipv4(udp(b"\0" * 20))[1:], None))
    for i, (packet, cut) in enumerate(found):
        frame = linked(link, packet, tagged)
        if cut == "arp":
            frame = frame.replace(b"\x08\0\x45", b"\x08\x06\x45", 1)
            cut = None
        length = len(frame) + (150 if cut else 0)
        octets += struct.pack(order + "4I", 1796000000 + i, 1000 * i, len(frame), length) + frame
    (HERE / f"{name}.pcap").write_bytes(octets)
    print(f"{name}.pcap: {len(octets)} octets, {len(found)} packets")
    return others + 1


def main():
    """Writes the files."""
    dump = Dump()
    (HERE / "messages").mkdir(exist_ok=True)
    for title, octets in messages():
        dump.message(title, octets)
        (HERE / f"messages/{dump.messages:02}_{title}.bin").write_bytes(octets)
    (HERE / "all.out").write_text("".join(line + "\n" for line in dump.lines))
    micro, nano = 0xA1B2C3D4, 0xA1B23C4D
    options = b"\x94\4\0\0\1\1\1\0"
    others = {
        capture("ethernet", 1, "<", micro, False, lambda i, it: ipv6(it) if i % 3 == 2 else ipv4(it)),
        capture("vlan", 1, ">", micro, True, lambda i, it: ipv6(it) if i % 3 == 1 else ipv4(it)),
        capture("cooked", 113, "<", nano, False, lambda i, it: ipv6(it) if i % 3 == 0 else ipv4(it)),
        capture("raw", 101, ">", nano, False, lambda i, it: ipv6(it) if i % 3 == 2 else ipv4(it, options=options)),
    }
    assert len(others) == 1
    for name, number in (("capture", others.pop()), ("folder", 0)):
        (HERE / f"{name}.err").write_text("".join(line + "\n" for line in dump.counts(number)))


if __name__ == "__main__":
    main()
