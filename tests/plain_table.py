"""A plain table of record data: what octets are data of a type, and what is printed of them.

It is slow, whole, and written from the tables of the RFCs, as docs/dev/DEFINITIONS.md and docs/TEXTS.md retell them, and not
from the library's code. The tests compare the program with it.

Each type has a recognizer: a function of a `Window` that takes the fields from it, and answers the fields' canonical octets,
the octets that are emitted (with names still as names) and the text. It raises `NoData` where the octets are no data.
"""

import base64
import collections
import ipaddress


class NoData(Exception):
    """The octets are no data of the type."""


class Window:
    """The octets of a record in a message, from a place on, and how far they were taken."""

    def __init__(self, message, place, length):
        self.message, self.at, self.end = message, place, place + length
        if self.end > len(message):
            raise NoData

    def left(self):
        """How many octets of the record are not taken."""
        return self.end - self.at

    def octets(self, count):
        """The next octets, so many."""
        if count > self.left():
            raise NoData
        self.at += count
        return self.message[self.at - count : self.at]

    def number(self, size, signed=False):
        """A number of so many octets, the most significant first (RFC 1035, 2.3.2)."""
        return int.from_bytes(self.octets(size), "big", signed=signed)

    def string(self):
        """A character string: a length octet, and so many octets (RFC 1035, 3.3)."""
        return self.octets(self.number(1))

    def rest(self):
        """All octets to the end of the record."""
        return self.octets(self.left())

    def name(self):
        """A domain name, whose own octets end within the record."""
        labels, end = name_at(self.message, self.at)
        if end > self.end:
            raise NoData
        self.at = end
        return Name(labels)


def name_at(message, place):
    """The labels of the name that stands at a place, and where its octets end (RFC 1035, 3.1 and 4.1.4).

    A pointer leads to a place before the one where the labels began that it ends, and what stands there is read in the
    message cut off at that beginning.
    """
    labels, end, began, at = [], None, place, place
    while True:
        if at >= len(message):
            raise NoData
        first = message[at]
        if first == 0:
            break
        if first < 64:
            labels.append(message[at + 1 : at + 1 + first])
            at += 1 + first
            if at > len(message):
                raise NoData
        elif first >= 192 and at + 1 < len(message):
            target = (first - 192) * 256 + message[at + 1]
            if target >= began:
                raise NoData
            end = at + 2 if end is None else end
            message, began, at = message[:began], target, target
        else:
            raise NoData
    if sum(len(label) + 1 for label in labels) + 1 > 255:
        raise NoData
    return labels, at + 1 if end is None else end


class Name:
    """A fully qualified domain name."""

    def __init__(self, labels):
        self.labels = [bytes(label) for label in labels]

    def whole(self):
        """The octets without a pointer (RFC 1035, 3.1)."""
        return b"".join(bytes([len(x)]) + x for x in self.labels) + b"\0"

    def canonical(self):
        """The octets without a pointer, the letters A to Z lowered (RFC 4034, 6.2)."""
        return b"".join(bytes([len(x)]) + lower(x) for x in self.labels) + b"\0"

    def text(self):
        """The text where each label has letters, digits, hyphens and underscores alone, and begins with no hyphen."""
        plain = all(is_plain_label(x) for x in self.labels)
        return "".join(x.decode() + "." for x in self.labels) or "." if plain else None


def lower(octets):
    """The octets with A to Z lowered."""
    return bytes(x + 32 if 65 <= x <= 90 else x for x in octets)


def is_plain(octets):
    """Whether the octets are ASCII letters and digits alone."""
    return octets.isalnum() and octets.isascii()


def is_plain_label(label):
    """Whether a label prints as its own octets whatever the rules of escaping are."""
    return is_plain(label.replace(b"-", b"x").replace(b"_", b"x")) and label[:1] != b"-"


def emitted(parts, pointed):
    """The octets of a fresh encoder: octets as they are, and names, which may end by a pointer (RFC 1035, 4.1.4).

    A pointer leads to the first place where the longest tail of the name was written in the same octets. None where
    there is no room for them in 65535 octets.
    """
    out, places = b"", {}
    for part in parts:
        if not isinstance(part, Name):
            out += part
            continue
        labels = part.labels
        for i in range(len(labels) + 1):
            tail = tuple(labels[i:])
            if pointed and tail in places:
                out += (0xC000 + places[tail]).to_bytes(2, "big")
                break
            if tail and len(out) < 16384:
                places[tail] = len(out)
            out += bytes([len(labels[i])]) + labels[i] if tail else b"\0"
    return out if len(out) <= 65535 else None


def canonical(parts):
    """The canonical octets of fields: octets as they are, and names without a pointer in lower case."""
    return b"".join(part.canonical() if isinstance(part, Name) else part for part in parts)


def joined(*words):
    """The words with a blank between each two; None where one of them is not given."""
    return None if None in words else " ".join(str(word) for word in words)


def lossy(octets):
    """The octets as UTF-8, with a mark in place of what is none."""
    return octets.decode("utf-8", "replace")


def base64_text(octets):
    """The octets in base64 (RFC 4648, 4)."""
    return base64.b64encode(octets).decode()


# Each recognizer below answers the fields, from which the octets are made, and the text. The fields are octets and names.


def cut_string(octets):
    """The octets of a character string."""
    return bytes([len(octets)]) + octets


def address(window):
    """A: four octets (RFC 1035, 3.4.1)."""
    octets = window.octets(4)
    return [octets], ".".join(str(x) for x in octets)


def long_address(window):
    """AAAA: sixteen octets (RFC 3596, 2.2), with the text of RFC 5952 save for the runs of mixed addresses."""
    octets = window.octets(16)
    return [octets], long_address_text(octets)


def long_address_text(octets):
    """The text of an address of sixteen octets: ::ffff: and a short address where it is one that is mapped."""
    if octets[:12] == b"\0" * 10 + b"\xff\xff":
        return "::ffff:" + ".".join(str(x) for x in octets[12:])
    groups = [int.from_bytes(octets[i : i + 2], "big") for i in range(0, 16, 2)]
    runs = [(i, j) for i in range(8) for j in range(i + 2, 9) if not any(groups[i:j])]
    if not runs:
        return ":".join(f"{x:x}" for x in groups)
    i, j = max(runs, key=lambda run: (run[1] - run[0], -run[0]))
    return ":".join(f"{x:x}" for x in groups[:i]) + "::" + ":".join(f"{x:x}" for x in groups[j:])


def one_name(window):
    """CNAME, NS, PTR (RFC 1035, 3.3.1, 3.3.11 and 3.3.12) and ANAME: a name."""
    name = window.name()
    return [name], name.text()


def number(octets):
    """The number whose octets these are."""
    return int.from_bytes(octets, "big")


def start_of_authority(window):
    """SOA: two names, and five numbers of four octets, of which three are signed (RFC 1035, 3.3.13)."""
    names, octets = [window.name(), window.name()], window.octets(20)
    words = [int.from_bytes(octets[4 * i : 4 * i + 4], "big", signed=0 < i < 4) for i in range(5)]
    return [*names, octets], joined(*(name.text() for name in names), *words)


def numbers_and_name(*sizes):
    """MX (RFC 1035, 3.3.9), SRV (RFC 2782) and the like: numbers of so many octets each, and a name."""

    def recognize(window):
        numbers, name = [window.octets(size) for size in sizes], window.name()
        return [*numbers, name], joined(*map(number, numbers), name.text())

    return recognize


def naming_authority(window):
    """NAPTR: order, preference, flags, services, regexp and a name (RFC 3403, 4)."""
    numbers = window.octets(4)
    strings = [window.string() for _ in range(3)]
    name = window.name()
    if strings[0] and not is_plain(strings[0]):
        raise NoData
    text = joined(number(numbers[:2]), number(numbers[2:]), *(f'"{lossy(x)}"' for x in strings), name.text())
    return [numbers, *map(cut_string, strings), name], text


def host_information(window):
    """HINFO: two character strings (RFC 1035, 3.3.2)."""
    strings = [window.string(), window.string()]
    return [cut_string(x) for x in strings], joined(*map(lossy, strings))


def strings_to_the_end(window):
    """TXT: character strings to the end, none or more (RFC 1035, 3.3.14)."""
    strings = []
    while window.left():
        strings.append(window.string())
    return [cut_string(x) for x in strings], "".join(map(lossy, strings))


def any_octets(window):
    """NULL (RFC 1035, 3.3.10), OPENPGPKEY (RFC 7929, 2.1) and types that are not known (RFC 3597, 3): all octets."""
    octets = window.rest()
    return [octets], base64_text(octets)


def no_octets(window):
    """Type 0: no octets."""
    return [], ""


CERT_TYPES = {
    **dict(enumerate("Reserved0 PKIX SPKI PGP IPKIX ISPKI IPGP ACPKIX IACPKIX".split())),
    **{253: "URI", 254: "OID", 255: "Reserved255", 65535: "Reserved65535"},
}
CERT_ALGORITHMS = {
    **dict(enumerate("- RSAMD5 DH DSA ECC RSASHA1 DSANSEC3SHA1 RSASHA1NSEC3SHA1 RSASHA256 - RSASHA512 -".split())),
    **{12: "ECCGOST", 13: "ECDSAP256SHA256", 14: "ECDSAP384SHA384", 15: "ED25519", 16: "ED448", 17: "SM2SM3"},
    **{23: "ECCGOST12", 252: "INDIRECT", 253: "PRIVATEDNS", 254: "PRIVATEOID", 0: "Reserved(0)"},
    **{9: "Reserved(9)", 11: "Reserved(11)"},
}


def certificate(window):
    """CERT: type, key tag, algorithm, and at least one octet more (RFC 4398, 2)."""
    head, data = window.octets(5), window.rest()
    if not data:
        raise NoData
    kind, tag, algorithm = number(head[:2]), number(head[2:4]), head[4]
    other = "Experimental" if 65280 <= kind else "Unassigned"
    words = CERT_TYPES.get(kind, f"{other}({kind})"), tag, CERT_ALGORITHMS.get(algorithm, f"Unassigned({algorithm})")
    return [head, data], joined(*words, base64_text(data))


def digest(count):
    """SSHFP (RFC 4255, 3.1), TLSA (RFC 6698, 2.1) and SMIMEA (RFC 8162, 2): so many numbers of an octet, and the rest."""

    def recognize(window):
        numbers, data = window.octets(count), window.rest()
        return [numbers, data], joined(*numbers, data.hex())

    return recognize


def child_to_parent(window):
    """CSYNC: serial, flags without the bits 2 to 7, and a set of type numbers (RFC 7477, 2.1; RFC 4034, 4.1.2)."""
    serial, flags, numbers = window.octets(4), window.octets(2), set()
    if flags[1] & 0xFC:
        raise NoData
    while window.left():
        block, size = window.number(1), window.number(1)
        if not 1 <= size <= 32:
            raise NoData
        octets = window.octets(size)
        numbers |= {block * 256 + i for i in range(size * 8) if octets[i // 8] >> (7 - i % 8) & 1}
    words = [NAMES.get(x) for x in sorted(numbers)]
    return [serial, flags, bitmap(numbers)], joined(number(serial), number(flags), *words)


def bitmap(numbers):
    """The shortest octets of a set of type numbers (RFC 4034, 4.1.2)."""
    out = b""
    for block in sorted({x // 256 for x in numbers}):
        bits = [x % 256 for x in numbers if x // 256 == block]
        octets = [sum(128 >> x % 8 for x in bits if x // 8 == i) for i in range(max(bits) // 8 + 1)]
        out += bytes([block, len(octets)]) + bytes(octets)
    return out


def authorization(window):
    """CAA: flags, a tag of 1 to 15 letters and digits, and the rest (RFC 8659, 4.1)."""
    flags, tag, value = window.octets(1), window.string(), window.rest()
    if not (1 <= len(tag) <= 15 and is_plain(tag)):
        raise NoData
    return [flags, cut_string(tag), value], f'{flags[0]} {tag.decode()} "{lossy(value)}"'


def options(window):
    """OPT: options to the end, each a code, a length and so many octets (RFC 6891, 6.1.2).

    A record that ends behind a code, or behind a code, a length of at most the record's and fewer octets, has no options
    at all. That rule is this project's own.
    """
    length, found = window.left(), []
    while window.left():
        code = window.octets(2)
        if not window.left():
            return [], None
        size = window.number(2)
        if window.left() < size <= length:
            window.rest()
            return [], None
        data = window.octets(size)
        if number(code) == 8:
            data = client_subnet(data)
        found.append(code + len(data).to_bytes(2, "big") + data)
    return found, None


def client_subnet(data):
    """The octets of a client subnet (RFC 7871, 6) without those that follow its address."""
    window = Window(data, 0, len(data))
    family, source, scope = window.number(2), window.number(1), window.number(1)
    count = (source + 7) // 8
    if count > {1: 4, 2: 16}.get(family, -1):
        raise NoData
    return bytes([0, family, source, scope]) + window.octets(count)


def service(window):
    """SVCB and HTTPS: priority, a name, and parameters with rising keys (RFC 9460, 2.2)."""
    priority, target = window.octets(2), window.name()
    parts, text, last = [priority, target], joined(number(priority), target.text()), -1
    while window.left():
        key = window.number(2)
        value = window.octets(window.number(2))
        if key <= last:
            raise NoData
        value, value_text = parameter(key, value)
        parts += [key.to_bytes(2, "big"), len(value).to_bytes(2, "big"), value]
        text, last = joined(text, f"{key_text(key)}={value_text}"), key
    return parts, text


KEYS = "mandatory alpn no-default-alpn port ipv4hint ech ipv6hint dohpath".split()


def key_text(key):
    """The text of a parameter's key: its name, `key` and its number if that is for private use, or `unknown` and it."""
    return KEYS[key] if key < len(KEYS) else f"key{key}" if key >= 65280 else f"unknown{key}"


def parameter(key, octets):
    """The octets of a parameter's value that are kept, and its text (RFC 9460, 7; RFC 9461, 5)."""
    window = Window(octets, 0, len(octets))
    if key == 2 and octets or key in (0, 1) and not octets:
        raise NoData
    if key == 3:
        return octets[:2], window.number(2)
    if key == 7:
        return octets, f'"{decoded(octets)}"'
    if key not in (0, 1, 2, 4, 6):
        return octets, f'"{base64_text(octets)}"' if key == 5 else f'"{lossy(octets)}",'
    items = []
    while window.left():
        items.append(item(key, window) + ",")
    return octets, "".join(items)


def item(key, window):
    """The text of the next key, protocol or address of a list (RFC 9460, 8, 7.1 and 7.3)."""
    if key == 0:
        return key_text(window.number(2))
    if key == 4:
        return address(window)[1]
    if key == 6:
        return long_address(window)[1]
    return decoded(window.string())


def decoded(octets):
    """The text of octets that are UTF-8."""
    try:
        return octets.decode("utf-8")
    except UnicodeDecodeError:
        raise NoData from None


# The types: a number, its name, the recognizer of its data, and whether its names are written with pointers.
TYPES = [
    (0, "ZERO", no_octets, False),
    (1, "A", address, False),
    (2, "NS", one_name, True),
    (5, "CNAME", one_name, True),
    (6, "SOA", start_of_authority, True),
    (10, "NULL", any_octets, False),
    (12, "PTR", one_name, True),
    (13, "HINFO", host_information, False),
    (15, "MX", numbers_and_name(2), True),
    (16, "TXT", strings_to_the_end, False),
    (28, "AAAA", long_address, False),
    (33, "SRV", numbers_and_name(2, 2, 2), False),
    (35, "NAPTR", naming_authority, False),
    (37, "CERT", certificate, False),
    (41, "OPT", options, False),
    (44, "SSHFP", digest(2), False),
    (52, "TLSA", digest(3), False),
    (53, "SMIMEA", digest(3), False),
    (61, "OPENPGPKEY", any_octets, False),
    (62, "CSYNC", child_to_parent, False),
    (64, "SVCB", service, False),
    (65, "HTTPS", service, False),
    (257, "CAA", authorization, False),
    (65305, "ANAME", one_name, False),
]
NEVER_READ = {251: "IXFR", 252: "AXFR", 255: "ANY"}
OF_ANY_OCTETS = dict(
    SIG=24, KEY=25, DNAME=39, DS=43, RRSIG=46, NSEC=47, DNSKEY=48, NSEC3=50, NSEC3PARAM=51, CDS=59, CDNSKEY=60, TSIG=250
)
ROWS = {row[0]: row for row in TYPES}
NAMES = {
    **{row[0]: row[1] for row in TYPES},
    **NEVER_READ,
    **{value: name for name, value in OF_ANY_OCTETS.items()},
}
NUMBERS = {name: value for value, name in NAMES.items()}


def type_number(word):
    """The number of the type that a word names, or None: its name, its number, or `TYPE` and its number."""
    if word in NUMBERS:
        return NUMBERS[word]
    digits = word[4:] if word.startswith("TYPE") else word
    return int(digits) if digits.isascii() and digits.isdigit() and int(digits) < 65536 else None


def fields(kind, message, place, length):
    """The fields of data of a type, its text, and whether its names are written with pointers. None where it is refused."""
    try:
        if kind in NEVER_READ:
            return None
        window = Window(message, place, length)
        _, _, recognize, pointed = ROWS.get(kind, (kind, "", any_octets, False))
        parts, text = recognize(window)
    except NoData:
        return None
    return None if window.left() else (parts, text, pointed)


def read(kind, message, place, length):
    """What the program prints of data of a type: canonical octets, emitted octets and text. None where it is refused.

    Emitted octets are None where there is no room for them, and a text is None where this table gives none.
    """
    found = fields(kind, message, place, length)
    if found is None:
        return None
    parts, text, pointed = found
    is_opt = kind == NUMBERS["OPT"]
    text = "none" if is_opt else text
    return canonical(sorted(parts) if is_opt else parts), emitted(parts, pointed), text


# The fields of types with names, up to the last name: so many octets, a string, a string of letters and digits, or a name.
NAMED = {
    **dict.fromkeys(("NS", "CNAME", "PTR", "ANAME"), ["name"]),
    "SOA": ["name", "name"],
    "MX": [2, "name"],
    "SRV": [6, "name"],
    "NAPTR": [4, "letters", "string", "string", "name"],
    **dict.fromkeys(("SVCB", "HTTPS"), [2, "name"]),
}


def steps_of(message, place):
    """How many labels and compression pointers the name at a place has: all, or those up to the damage (RFC 1035, 4.1.4).

    A label counts if it fits the name, and an octet follows it.
    """
    count, octets, began, at, end = 0, 0, place, place, len(message)
    while at < end:
        first = message[at]
        if 0 < first < 64 and octets + first + 1 <= 254 and at + first + 1 < end:
            count += 1
            octets += first + 1
            at += first + 1
            continue
        if first < 192 or at + 1 >= end:
            break
        target = (first - 192) * 256 + message[at + 1]
        if target >= began:
            break
        count, end, began, at = count + 1, began, target, target
    return count


def data_steps(kind, message, place):
    """How many labels and compression pointers the names of RDATA have, up to and with a field that is rejected.

    Fields are read as far as the message goes; that they pass RDLENGTH shows only at the end.
    """
    count = 0
    for field in NAMED.get(NAMES.get(kind), []):
        if field == "name":
            count += steps_of(message, place)
            try:
                _, place = name_at(message, place)
            except NoData:
                break
            continue
        size = field if isinstance(field, int) else 1 + (message[place] if place < len(message) else 0)
        octets = message[place : place + size]
        if len(octets) < size or field == "letters" and size > 1 and not is_plain(octets[1:]):
            break
        place += size
    return count


# Messages (RFC 1035, 4.1). How many labels and compression pointers a walk goes over at most. A class of a record without data (RFC 2136,
# 2.4 and 2.5).
LIMIT = 262144
TOO_MANY = "more labels and compression pointers than the limit"
SECTIONS = "question answer authority additional".split()
NO_DATA_CLASSES = (254, 255)

# A question or a record: its section, index and offset; the labels of its name, its type and class; of a record the TTL, where
# the RDATA is and RDLENGTH. `fault` is why it is refused, as the program prints it, or "RDATA"; `has_data` is False for a
# record without data.
Entry = collections.namedtuple(
    "Entry",
    "section index offset fault labels kind of ttl place length has_data",
    defaults=[None, None, None, None, None, None, None, True],
)


def entry_at(message, section, index, offset, left):
    """The question or record at an offset, where it ends, and how many steps are left of so many.

    The end is None where the walk cannot go on.
    """
    head = (section, index, offset)
    left -= steps_of(message, offset)
    if left < 0:
        return Entry(*head, TOO_MANY), None, 0
    try:
        labels, at = name_at(message, offset)
    except NoData:
        return Entry(*head, "invalid domain name"), None, left
    is_question = section == "question"
    if len(message) - at < (4 if is_question else 10):
        return Entry(*head, "unexpected end of the message"), None, left
    kind, of = number(message[at : at + 2]), number(message[at + 2 : at + 4])
    if is_question:
        return Entry(*head, None, labels, kind, of), at + 4, left
    ttl, length, place = number(message[at + 4 : at + 8]), number(message[at + 8 : at + 10]), at + 10
    after = len(message) - place
    if after < length:
        return Entry(*head, f"RDLENGTH is {length}, and {after} octets are left"), None, left
    has_data = length > 0 or kind == NUMBERS["OPT"] or of not in NO_DATA_CLASSES
    left -= data_steps(kind, message, place) if has_data else 0
    if left < 0:
        return Entry(*head, TOO_MANY), None, 0
    fault = "RDATA" if has_data and fields(kind, message, place, length) is None else None
    return Entry(*head, fault, labels, kind, of, ttl, place, length, has_data), place + length, left


def entries(message):
    """The questions and records of a message in their order, and the octets after the last one.

    The octets are None if the walk ends before: an entry is refused, and not for its RDATA. The message has a whole header.
    """
    found, offset, left = [], 12, LIMIT
    for i, section in enumerate(SECTIONS):
        for index in range(number(message[4 + 2 * i : 6 + 2 * i])):
            entry, offset, left = entry_at(message, section, index, offset, left)
            found.append(entry)
            if offset is None:
                return found, None
    return found, message[offset:]
