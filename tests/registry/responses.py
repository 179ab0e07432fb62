#!/usr/bin/env python3
"""Writes messages.tsv: responses with types of RFC 1035 and of RFC 3597, section 4, whose names in RDATA are compressed.

    tests/registry/responses.py                     writes the messages; then
    tests/registry/peers.py WORK_DIR messages       asks other libraries what records they have

Every name, of owners and in RDATA, ends with a pointer to the first place where the longest tail of it was written in the same letters
(RFC 1035, section 4.1.4). The RDATA that is wanted is put together here from the same names, uncompressed.
"""
import pathlib

HERE = pathlib.Path(__file__).resolve().parent


def labels(text):
    """The labels of a name."""
    return [part.encode() for part in text.split(".") if part]


def whole(text):
    """A name uncompressed."""
    return b"".join(bytes([len(it)]) + it for it in labels(text)) + b"\0"


class Writer:
    """A message that is written."""

    def __init__(self, flags, counts):
        self.octets = (0x1234).to_bytes(2, "big") + flags.to_bytes(2, "big") + b"".join(it.to_bytes(2, "big") for it in counts)
        self.places = {}

    def name(self, text):
        """Writes a name, compressed."""
        rest = labels(text)
        while rest:
            tail = tuple(rest)
            if tail in self.places:
                self.octets += (0xC000 + self.places[tail]).to_bytes(2, "big")
                return
            if len(self.octets) < 16384:
                self.places[tail] = len(self.octets)
            self.octets += bytes([len(rest[0])]) + rest[0]
            rest = rest[1:]
        self.octets += b"\0"

    def record(self, owner, kind, ttl, parts):
        """Writes a record, whose RDATA is octets and names (strings)."""
        self.name(owner)
        self.octets += kind.to_bytes(2, "big") + b"\0\1" + ttl.to_bytes(4, "big") + b"\0\0"
        begin = len(self.octets)
        for part in parts:
            if isinstance(part, str):
                self.name(part)
            else:
                self.octets += part
        length = len(self.octets) - begin
        self.octets = self.octets[: begin - 2] + length.to_bytes(2, "big") + self.octets[begin:]


def message(question, kind, *sections):
    """A response: a question, and the records of its sections (owner, type, TTL, parts). And the RDATA that is wanted of each."""
    sections = [*sections, [], []][:3]
    writer = Writer(0x8580, [1, *map(len, sections)])
    writer.name(question)
    writer.octets += kind.to_bytes(2, "big") + b"\0\1"
    wanted = []
    for record in [it for section in sections for it in section]:
        writer.record(*record)
        octets = b"".join(whole(it) if isinstance(it, str) else it for it in record[3])
        wanted.append(f"{record[1]}:{octets.hex()}")
    return writer.octets.hex(), " ".join(wanted)


def octets(text):
    """Octets of hexadecimal digits."""
    return bytes.fromhex(text.replace(" ", ""))


SIGNED = octets("000f 05 02 00000e10 70dbd880 5e0be100 3039")
GLUE = [("mail.example.com.", 1, 300, [octets("c0000219")]), ("ns.example.com.", 28, 300, [octets("20010db8000000000000000000000001")])]
NS = [("example.com.", 2, 3600, ["ns.example.com."]), ("example.com.", 2, 3600, ["NS.Example.COM."])]

MESSAGES = [
    ("MD and MF", message("example.com.", 255, [("example.com.", 3, 1, ["mail.example.com."]), ("example.com.", 4, 1, ["mail.example.com."])], NS, GLUE)),
    ("MB, MG and MR", message("list.example.com.", 253, [
        ("list.example.com.", 7, 60, ["host.example.com."]), ("list.example.com.", 8, 60, ["a.list.example.com."]),
        ("list.example.com.", 9, 60, ["b.a.list.example.com."])], NS)),
    ("MINFO: the second name points into the first", message("list.example.com.", 14, [
        ("list.example.com.", 14, 4294967295, ["admin.other.test.", "error.other.test."]), ("list.example.com.", 14, 0, [".", "."]),
        ("list.example.com.", 14, 5, ["Admin.Other.Test.", "error.admin.other.test."])])),
    ("RP", message("host.example.com.", 17, [
        ("host.example.com.", 17, 7200, ["louie.trantor.umd.edu.", "LAM1.people.umd.edu."]), ("host.example.com.", 17, 7200, ["root.example.com.", "."])], NS)),
    ("AFSDB", message("cell.example.com.", 18, [
        ("cell.example.com.", 18, 7200, [octets("0001"), "afs.cell.example.com."]), ("cell.example.com.", 18, 7200, [octets("0002"), "example.com."])])),
    ("RT", message("sh.prime.com.", 21, [
        ("sh.prime.com.", 21, 7200, [octets("0002"), "relay.prime.com."]), ("sh.prime.com.", 21, 7200, [octets("000a"), "net.prime.com."])])),
    ("PX", message("it.", 26, [
        ("it.", 26, 7200, [octets("0032"), "it.", "ADMD-garr.C-it."]), ("it.", 26, 7200, [octets("0032"), "ab.net2.it.", "O-ab.PRMD-net2.ADMD-garr.C-it."])])),
    ("SIG", message("foo.example.com.", 24, [
        ("foo.example.com.", 15, 3600, [octets("000a"), "mail.example.com."]), ("foo.example.com.", 24, 3600, [SIGNED, "example.com.", octets("0102030405060708")])])),
    ("NXT", message("big.foo.tld.", 30, [("big.foo.tld.", 30, 3600, ["medium.foo.tld.", octets("40010082")])])),
    ("NAPTR and SRV, compressed as RFC 2052 asked for", message("_sip._udp.example.com.", 33, [
        ("_sip._udp.example.com.", 33, 3600, [octets("0001 0002 13c4"), "mail.example.com."]),
        ("example.com.", 35, 3600, [octets("0064 000a 01 73 07 5349502b443255 00"), "_sip._udp.example.com."])])),
    ("NS, CNAME, PTR, SOA and MX", message("www.example.com.", 255, [
        ("www.example.com.", 5, 3600, ["host.www.example.com."]), ("1.2.0.192.in-addr.arpa.", 12, 3600, ["host.www.example.com."]),
        ("example.com.", 6, 3600, ["ns.example.com.", "hostmaster.example.com.", octets("0000000100001c2000000e1000127500 0000012c")]),
        ("example.com.", 15, 3600, [octets("0014"), "mail.example.com."])], NS, GLUE)),
    ("newer types, whose names are whole, among compressed owners", message("example.com.", 255, [
        ("example.com.", 47, 300, [whole("host.example.com."), octets("0006 400100000003")]),
        ("example.com.", 46, 300, [SIGNED, whole("example.com."), octets("01020304")]),
        ("kx.example.com.", 36, 300, [octets("000a"), whole("kx1.example.com.")]),
        ("dname.example.com.", 39, 300, [whole("target.example.com.")])])),
]


def main():
    """See above."""
    head = [
        "# Responses with compressed names in RDATA: what they have; the message; the type and the uncompressed RDATA of each record, a blank",
        "# between two; what ldns (`ldns_rr_list_print`) and miekg/dns (`String`) print of the records, ` | ` between two. Made by responses.py",
        "# and peers.py.",
        "# Versions: ",
    ]
    rows = ["\t".join([words, *made]) for words, made in MESSAGES]
    (HERE / "messages.tsv").write_text("".join(line + "\n" for line in head + rows), encoding="utf-8")


if __name__ == "__main__":
    main()
