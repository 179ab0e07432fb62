#!/usr/bin/env python3
"""A reference model of the types that IANA's registry lists with a format: fields of RDATA, strictly as the RFC of the type has them.

    tests/registry/model.py --check                            holds it to the files here
    tests/registry/model.py TYPE OFFSET RDLENGTH MESSAGE       prints the fields of one record: name, kind, value; and the octets

It is slow, and written from the RFCs, and not from the library's code. A row is a line of ROWS: a type's number, its name and its
fields. A field is a kind, rules in brackets, and a name; KINDS and RULES say once what each kind and each rule is. Names and windows are
those of ../plain_table.py, which has hickory's rules for the types whose data has a struct of its own; their rows here are the RFCs'.
"""
import pathlib
import sys

HERE = pathlib.Path(__file__).resolve().parent
sys.path.insert(0, str(HERE.parent))
import plain_table  # noqa: E402
from plain_table import Name, NoData, Window  # noqa: E402

# Kinds: u8 u16 u32 u48 u64 (numbers), octetsN, name (may be compressed), uname (may not), string (one length octet), strings (to the end),
# long (two length octets), rest (to the end), and those that depend on fields before them. The section is where the format is.
ROWS = """
1      A           octets4 address                                                                      | RFC 1035, 3.4.1
2      NS          name target                                                                          | RFC 1035, 3.3.11
3      MD          name target                                                                          | RFC 1035, 3.3.4
4      MF          name target                                                                          | RFC 1035, 3.3.5
5      CNAME       name target                                                                          | RFC 1035, 3.3.1
6      SOA         name mname, name rname, u32 serial, u32 refresh, u32 retry, u32 expire, u32 minimum  | RFC 1035, 3.3.13
7      MB          name target                                                                          | RFC 1035, 3.3.3
8      MG          name target                                                                          | RFC 1035, 3.3.6
9      MR          name target                                                                          | RFC 1035, 3.3.8
10     NULL        rest data                                                                            | RFC 1035, 3.3.10
11     WKS         octets4 address, u8 protocol, rest bitmap                                            | RFC 1035, 3.4.2
12     PTR         name target                                                                          | RFC 1035, 3.3.12
13     HINFO       string cpu, string os                                                                | RFC 1035, 3.3.2
14     MINFO       name rmailbx, name emailbx                                                           | RFC 1035, 3.3.7
15     MX          u16 preference, name exchange                                                        | RFC 1035, 3.3.9
16     TXT         strings[some] data                                                                   | RFC 1035, 3.3.14
17     RP          name mbox, name txt                                                                  | RFC 1183, 2.2
18     AFSDB       u16 subtype, name hostname                                                           | RFC 1183, 1
19     X25         string[dnic] address                                                                 | RFC 1183, 3.1
20     ISDN        strings[one_or_two] address                                                          | RFC 1183, 3.2
21     RT          u16 preference, name intermediate_host                                               | RFC 1183, 3.3
22     NSAP        rest[some] address                                                                   | RFC 1706, 5
23     NSAP-PTR    uname owner                                                                          | RFC 1348; RFC 3597, 4
24     SIG         u16 type_covered, u8 algorithm, u8 labels, u32 original_ttl, u32 expiration, u32 inception, u16 key_tag, name signer, rest[some] signature | RFC 2535, 4.1
25     KEY         u16 flags, u8 protocol, u8 algorithm, rest[unless_no_key] public_key                 | RFC 2535, 3.1
26     PX          u16 preference, name map822, name mapx400                                            | RFC 2163, 4
27     GPOS        string longitude, string latitude, string altitude                                   | RFC 1712, 3
28     AAAA        octets16 address                                                                     | RFC 3596, 2.2
29     LOC         u8[zero] version, u8[power] size, u8[power] horizontal_precision, u8[power] vertical_precision, u32[latitude] latitude, u32[longitude] longitude, u32 altitude | RFC 1876, 2
30     NXT         name next, rest[old_bitmap] types                                                    | RFC 2535, 5.2
31     EID         rest[some] data                                                                      | draft-ietf-nimrod-dns, 3.1
32     NIMLOC      rest[some] data                                                                      | draft-ietf-nimrod-dns, 3.2
33     SRV         u16 priority, u16 weight, u16 port, name target                                      | RFC 2782; RFC 3597, 4
34     ATMA        u8 format, rest[some] address                                                        | af-saa-0069
35     NAPTR       u16 order, u16 preference, string[flags] flags, string services, string regexp, name replacement | RFC 3403, 4.1; RFC 3597, 4
36     KX          u16 preference, uname exchanger                                                      | RFC 2230, 3.1
37     CERT        u16 cert_type, u16 key_tag, u8 algorithm, rest cert_data                             | RFC 4398, 2
38     A6          u8[prefix_length] prefix_length, suffix suffix, prefix_name prefix_name              | RFC 2874, 3.1
39     DNAME       uname target                                                                         | RFC 6672, 2.1
40     SINK        u8 meaning, u8 coding, u8 subcoding, rest data                                       | draft-eastlake-kitchen-sink
42     APL         rest[items] items                                                                    | RFC 3123, 4
43     DS          u16 key_tag, u8 algorithm, u8 digest_type, rest[some] digest                         | RFC 4034, 5.1
44     SSHFP       u8 algorithm, u8 fingerprint_type, rest fingerprint                                  | RFC 4255, 3.1
45     IPSECKEY    u8 precedence, u8 gateway_type, u8 algorithm, gateway gateway, rest public_key       | RFC 4025, 2
46     RRSIG       u16 type_covered, u8 algorithm, u8 labels, u32 original_ttl, u32 expiration, u32 inception, u16 key_tag, uname signer, rest[some] signature | RFC 4034, 3.1
47     NSEC        uname next, rest[bitmap some] types                                                  | RFC 4034, 4.1
48     DNSKEY      u16 flags, u8 protocol, u8 algorithm, rest[some] public_key                          | RFC 4034, 2.1
49     DHCID       rest[some] data                                                                      | RFC 4701, 3.1
50     NSEC3       u8 hash_algorithm, u8 flags, u16 iterations, string salt, string[some] next_hashed_owner, rest[bitmap] types | RFC 5155, 3.2
51     NSEC3PARAM  u8 hash_algorithm, u8 flags, u16 iterations, string salt                             | RFC 5155, 4.2
52     TLSA        u8 cert_usage, u8 selector, u8 matching, rest cert_data                              | RFC 6698, 2.1
53     SMIMEA      u8 cert_usage, u8 selector, u8 matching, rest cert_data                              | RFC 8162, 2
55     HIP         u8[some] hit_length, u8 public_key_algorithm, u16[some] public_key_length, hit hit, public_key public_key, servers servers | RFC 8005, 5
56     NINFO       strings[some] data                                                                   | draft-reid-dnsext-zs
57     RKEY        u16 flags, u8 protocol, u8 algorithm, rest[some] public_key                          | draft-reid-dnsext-rkey
58     TALINK      uname start, uname end                                                               | draft-wijngaards-dnsop-trust-history
59     CDS         u16 key_tag, u8 algorithm, u8 digest_type, rest[some] digest                         | RFC 7344, 3.1
60     CDNSKEY     u16 flags, u8 protocol, u8 algorithm, rest[some] public_key                          | RFC 7344, 3.2
61     OPENPGPKEY  rest public_key                                                                      | RFC 7929, 2.1
62     CSYNC       u32 soa_serial, u16 flags, rest[bitmap] types                                        | RFC 7477, 2.1
63     ZONEMD      u32 serial, u8 scheme, u8 hash_algorithm, rest[twelve] digest                        | RFC 8976, 2.2
64     SVCB        u16 priority, uname target, rest[parameters] params                                  | RFC 9460, 2.2
65     HTTPS       u16 priority, uname target, rest[parameters] params                                  | RFC 9460, 2.2
66     DSYNC       u16 rrtype, u8 scheme, u16 port, uname target                                        | RFC 9859, 2.1
67     HHIT        rest[some] data                                                                      | RFC 9886, 5.1
68     BRID        rest[some] data                                                                      | RFC 9886, 5.2
99     SPF         strings[some] data                                                                   | RFC 4408, 3.1.1
104    NID         u16 preference, octets8 node_id                                                      | RFC 6742, 2.1.1
105    L32         u16 preference, octets4 locator                                                      | RFC 6742, 2.2.1
106    L64         u16 preference, octets8 locator                                                      | RFC 6742, 2.3.1
107    LP          u16 preference, uname fqdn                                                           | RFC 6742, 2.4.1
108    EUI48       octets6 address                                                                      | RFC 7043, 3.1
109    EUI64       octets8 address                                                                      | RFC 7043, 4.1
128    NXNAME                                                                                           | RFC 9824, 2
249    TKEY        uname algorithm, u32 inception, u32 expiration, u16 mode, u16 error, long key, long other | RFC 2930, 2
250    TSIG        uname algorithm, u48 time_signed, u16 fudge, long mac, u16 original_id, u16 error, long other | RFC 8945, 4.2
256    URI         u16 priority, u16 weight, rest[some] target                                          | RFC 7553, 4.5
257    CAA         u8 flags, string[tag] tag, rest value                                                | RFC 8659, 4.1
258    AVC         strings[some] data                                                                   | the registry: as TXT
259    DOA         u32 enterprise, u32 type, u8 location, string media_type, rest data                  | draft-durand-doa-over-dns, 3.1
260    AMTRELAY    u8 precedence, u8 discovery_and_type, relay relay                                    | RFC 8777, 4.2
261    RESINFO     strings[some] data                                                                   | RFC 9606, 4
262    WALLET      strings[some] data                                                                   | the registry: as TXT
263    CLA         strings[some] data                                                                   | the registry: as TXT
264    IPN         u64 node                                                                             | the registry
32768  TA          u16 key_tag, u8 algorithm, u8 digest_type, rest[some] digest                         | the registry: as DS
32769  DLV         u16 key_tag, u8 algorithm, u8 digest_type, rest[some] digest                         | RFC 4431, 2
"""


def need(holds):
    """Rejects the RDATA unless a rule holds."""
    if not holds:
        raise NoData


# ---- rules: a function of a field's value and of the fields before it


def old_bitmap(octets, _before):
    """One bit for each of the types 1 to 127, bit 0 clear, no zero octet at the end (RFC 2535, 5.2)."""
    return 1 <= len(octets) <= 16 and octets[0] < 128 and octets[-1] != 0


def bitmap(octets, _before):
    """Windows that rise, of 1 to 32 octets each, of which the last one is not zero (RFC 4034, 4.1.2)."""
    last = -1
    while octets:
        if len(octets) < 2 or octets[0] <= last or not 1 <= octets[1] <= 32 or len(octets) < 2 + octets[1]:
            return False
        last, size = octets[0], octets[1]
        if octets[1 + size] == 0:
            return False
        octets = octets[2 + size :]
    return True


def items(octets, _before):
    """Items: family, prefix, negation and length, octets; those of families 1 and 2 have limits and no zero octet at the end (RFC 3123, 4)."""
    limits = {1: (32, 4), 2: (128, 16)}
    while octets:
        if len(octets) < 4 or len(octets) < 4 + octets[3] % 128:
            return False
        family, prefix, part = octets[0] * 256 + octets[1], octets[2], octets[4 : 4 + octets[3] % 128]
        if family in limits:
            bits, size = limits[family]
            if prefix > bits or len(part) > size or part[-1:] == b"\0":
                return False
        octets = octets[4 + len(part) :]
    return True


def parameters(octets, _before):
    """Parameters with rising keys: key, length, value (RFC 9460, 2.2). What a value may be is in ../plain_table.py."""
    last = -1
    while octets:
        if len(octets) < 4:
            return False
        key, size = octets[0] * 256 + octets[1], octets[2] * 256 + octets[3]
        if key <= last or len(octets) < 4 + size:
            return False
        last, octets = key, octets[4 + size :]
    return True


RULES = {
    "tag": lambda value, _: plain_table.is_plain(value),
    "flags": lambda value, _: not value or plain_table.is_plain(value),
    "parameters": parameters,
    "some": lambda value, _: value != 0 if isinstance(value, int) else len(value) >= 1,
    "zero": lambda value, _: value == 0,
    "twelve": lambda value, _: len(value) >= 12,
    "dnic": lambda value, _: len(value) >= 4 and value.isdigit(),
    "one_or_two": lambda value, _: 1 <= len(value) <= 2,
    "unless_no_key": lambda value, before: (len(value) == 0) == (before["flags"] >= 0xC000),
    "power": lambda value, _: value // 16 <= 9 and value % 16 <= 9 and (value == 0 or value // 16 > 0),
    "latitude": lambda value, _: abs(value - 2**31) <= 90 * 3600 * 1000,
    "longitude": lambda value, _: abs(value - 2**31) <= 180 * 3600 * 1000,
    "prefix_length": lambda value, _: value <= 128,
    "old_bitmap": old_bitmap,
    "bitmap": bitmap,
    "items": items,
}


# ---- kinds: a function of a window and of the fields before it, which returns the kind's name and the value; None for a field that is
# not there


def uncompressed(window):
    """A name that has no compression pointer."""
    begin = window.at
    name = window.name()
    need(window.message[begin : window.at] == name.whole())
    return name


def strings(window, _before):
    """Character strings to the end."""
    found = []
    while window.left():
        found.append(window.string())
    return "strings", found


def servers(window, _before):
    """Uncompressed names to the end (RFC 8005, 5)."""
    found = []
    while window.left():
        found.append(uncompressed(window))
    return "names", found


def suffix(window, before):
    """The octets that the prefix leaves (RFC 2874, 3.1)."""
    size = (128 - before["prefix_length"] + 7) // 8
    return f"octets{size}", window.octets(size)


def prefix_name(window, before):
    """A name, if there is a prefix (RFC 2874, 3.1)."""
    return ("uname", uncompressed(window)) if before["prefix_length"] else None


def address_or_name(window, kind):
    """Nothing, an IPv4 address, an IPv6 address, or a name (RFC 4025, 2.5; RFC 8777, 4.2.4)."""
    need(kind <= 3)
    if kind == 3:
        return "uname", uncompressed(window)
    return (f"octets{4 * kind * kind}", window.octets(4 * kind * kind)) if kind else None


def number(size):
    """A number of so many octets."""
    return lambda window, _: (f"u{8 * size}", window.number(size))


def fixed(size):
    """So many octets."""
    return lambda window, _: (f"octets{size}", window.octets(size))


KINDS = {
    **{f"u{8 * size}": number(size) for size in (1, 2, 4, 6, 8)},
    **{f"octets{size}": fixed(size) for size in (4, 6, 8, 16)},
    "name": lambda window, _: ("name", window.name()),
    "uname": lambda window, _: ("uname", uncompressed(window)),
    "string": lambda window, _: ("string", window.string()),
    "strings": strings,
    "rest": lambda window, _: ("rest", window.rest()),
    "long": lambda window, _: ("long", window.octets(window.number(2))),
    "suffix": suffix,
    "prefix_name": prefix_name,
    "gateway": lambda window, before: address_or_name(window, before["gateway_type"]),
    "relay": lambda window, before: address_or_name(window, before["discovery_and_type"] % 128),
    "hit": lambda window, before: (f"octets{before['hit_length']}", window.octets(before["hit_length"])),
    "public_key": lambda window, before: (f"octets{before['public_key_length']}", window.octets(before["public_key_length"])),
    "servers": servers,
}


def row(line):
    """The number of a row, its type's name, and its fields: kind, rules, name."""
    kind, name, *fields = line.split("|")[0].split(None, 2)
    found = []
    for field in fields[0].split(",") if fields else []:
        front, label = field.strip().rsplit(None, 1)
        base, _, rules = front.rstrip("]").partition("[")
        found.append((base, rules.split(), label))
    return int(kind), (name, found)


TYPES = dict(row(line) for line in ROWS.splitlines() if line)


def wire(kind, value):
    """The octets of a field, names uncompressed and with their letters."""
    if isinstance(value, int):
        return value.to_bytes(int(kind[1:]) // 8, "big")
    if isinstance(value, Name):
        return value.whole()
    if isinstance(value, list):
        return b"".join(wire("string", it) for it in value)
    size = {"string": 1, "long": 2}.get(kind, 0)
    return len(value).to_bytes(size, "big") + value if size else value


def read(kind, message, offset, length):
    """The fields of RDATA (name, kind, value) and its uncompressed octets. None where it is rejected."""
    try:
        window, fields, before = Window(message, offset, length), [], {}
        for base, rules, label in TYPES[kind][1]:
            found = KINDS[base](window, before)
            if found is None:
                continue
            need(all(RULES[rule](found[1], before) for rule in rules))
            before[label] = found[1]
            fields.append((label, *found))
        need(window.left() == 0)
    except NoData:
        return None
    return fields, b"".join(wire(it, value) for _, it, value in fields)


def read_any(kind, message, offset, length):
    """The uncompressed octets of RDATA of any type, by ../plain_table.py if it has the type. None where it is rejected."""
    if kind in TYPES:
        found = read(kind, message, offset, length)
        return None if found is None else found[1]
    found = plain_table.fields(kind, message, offset, length)
    return None if found is None else b"".join(it.whole() if isinstance(it, Name) else it for it in found[0])


# ---- the check


class Counts:
    """How many cases were as wanted."""

    def __init__(self):
        self.passed = self.failed = 0

    def add(self, holds, *words):
        """Counts a case, and prints one that fails."""
        if holds:
            self.passed += 1
        else:
            self.failed += 1
            print("not as wanted:", *words)


def table(name):
    """The rows of a file."""
    lines = (HERE / name).read_text(encoding="utf-8").splitlines()
    return [line.split("\t") for line in lines if line and not line.startswith("#")]


def octets_of(text):
    """The octets of hexadecimal digits, `-` for none."""
    return b"" if text == "-" else bytes.fromhex(text)


def check_octets(counts):
    """octets.tsv: what is wanted; and octets without a pointer are given back."""
    for kind, words, message, offset, length, wanted, *_ in table("octets.tsv"):
        message, offset, length = octets_of(message), int(offset), int(length)
        found = read(int(kind), message, offset, length)
        counts.add((found is not None) == (wanted == "ok"), "octets.tsv:", kind, words, "wanted", wanted)
        if found is not None:
            same = found[1] == message[offset : offset + length]
            counts.add(same or len(found[1]) > length or "point" in words, "octets.tsv: other octets:", kind, words)
            again = read(int(kind), found[1], 0, len(found[1]))
            counts.add(again is not None and again[1] == found[1], "octets.tsv: not read again:", kind, words)


def check_texts(counts):
    """texts.tsv: the octets that a text gives are RDATA, and are given back."""
    for kind, name, _, text, wanted, *_ in table("texts.tsv"):
        if wanted != "refused":
            octets = octets_of(wanted)
            counts.add(read_any(int(kind), octets, 0, len(octets)) == octets, "texts.tsv:", name, text, wanted)


def check_printed(counts):
    """printed.tsv: the octets are RDATA, and are given back."""
    for kind, name, octets, _, text in table("printed.tsv"):
        octets = octets_of(octets)
        counts.add(read_any(int(kind), octets, 0, len(octets)) == octets, "printed.tsv:", name, text)


def check_differences(counts):
    """differences.tsv: a line for each case in which BIND, or for a text any library, returns something else than is wanted."""
    listed = {(it[0], it[1], it[3]) for it in table("differences.tsv")}
    for kind, _, _, text, wanted, *answers in table("texts.tsv"):
        if any(it not in ("=", "unknown", wanted) for it in answers):
            counts.add(("texts", kind, text) in listed, "differences.tsv has no line: texts", kind, text)
    for kind, words, _, _, _, _, bind, *_ in table("octets.tsv"):
        if bind not in ("=", "unknown"):
            counts.add(("octets", kind, words) in listed, "differences.tsv has no line: octets", kind, words)


def type_numbers():
    """The numbers of the types, by name."""
    lines = (HERE.parent / "type_names.tsv").read_text(encoding="utf-8").splitlines()
    return {name: int(kind) for name, kind in (line.split("\t") for line in lines if not line.startswith("#"))}


def check_signed(counts):
    """signed/: the octets of each record are RDATA, and are given back."""
    numbers = type_numbers()
    for file in sorted((HERE / "signed").glob("*.tsv")):
        for line, octets in table(f"signed/{file.name}"):
            name, octets = line.split(" ")[3], octets_of(octets)
            kind = numbers.get(name) or int(name[4:])
            counts.add(read_any(kind, octets, 0, len(octets)) == octets, f"signed/{file.name}:", line)


def check_messages(counts):
    """messages.tsv: each record's RDATA is read, and its uncompressed octets are those that are wanted."""
    for words, message, wanted, *_ in table("messages.tsv"):
        message = octets_of(message)
        records = [entry for entry in plain_table.entries(message)[0] if entry.section != "question"]
        counts.add(len(records) == len(wanted.split()), "messages.tsv: records", words)
        for entry, one in zip(records, wanted.split()):
            kind, octets = one.split(":")
            found = read_any(entry.kind, message, entry.place, entry.length)
            counts.add(entry.kind == int(kind) and found == octets_of(octets), "messages.tsv:", words, one)


def check():
    """All checks."""
    counts = Counts()
    for part in (check_octets, check_texts, check_printed, check_differences, check_signed, check_messages):
        part(counts)
    print(f"{counts.passed} as wanted, {counts.failed} not")
    return counts.failed


def shown(value):
    """A value, as it is printed."""
    if isinstance(value, list):
        return " ".join(shown(it) for it in value) or "-"
    if isinstance(value, int):
        return str(value)
    return (value.whole() if isinstance(value, Name) else value).hex() or "-"


def main():
    """See above."""
    if sys.argv[1:] == ["--check"]:
        sys.exit(check() > 0)
    kind, offset, length, message = sys.argv[1:]
    found = read(int(kind), octets_of(message), int(offset), int(length))
    if found is None:
        print("rejected")
        sys.exit(1)
    for label, it, value in found[0]:
        print(label, it, shown(value))
    print("octets", found[1].hex() or "-")


if __name__ == "__main__":
    main()
