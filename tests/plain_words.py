"""A plain table of record texts: which texts give record data, and its octets.

It is slow, whole, and written from the tables of RFC 1035, section 5.1, and RFC 9460, appendix A, as docs/TEXTS.md and the
doc comments of `from_tokens` retell them, and not from the library's code. The tests compare the program with it.
"""

import base64
import binascii
import ipaddress
import re

import plain_table
from plain_table import NoData, Name, cut_string, is_plain

BLANKS, LINE_ENDS = " \t", "\r\n"


# ---- tokens


class Text:
    """What is left of a text."""

    def __init__(self, text):
        self.text = text

    def span(self, test):
        """Takes the characters in front that pass a test."""
        count = next((i for i, c in enumerate(self.text) if not test(c)), len(self.text))
        front, self.text = self.text[:count], self.text[count:]
        return front

    def remarks(self):
        """Takes a comment, from `;` to the line's end."""
        if self.text[:1] == ";":
            self.span(lambda c: c not in LINE_ENDS)

    def run(self):
        """Takes a word without quotes: it begins with no `"` and no `(`, and keeps each backslash."""
        if self.text[:1] in ('"', "(", ")", ""):
            raise NoData
        return self.span(lambda c: c not in BLANKS + LINE_ENDS + ");")

    def quoted(self):
        """Takes a word in quotes, in which a backslash stands before a character that is no digit, or before three digits."""
        self.text, word = self.text[1:], ""
        while True:
            word += self.span(lambda c: c not in '"\\')
            found = re.match(r'"|\\([0-9]{3})|\\([^0-9])', self.text, re.DOTALL)
            if not found or found[1] and int(found[1]) > 255:
                raise NoData
            self.text = self.text[found.end() :]
            if found[0] == '"':
                return word
            word += chr(int(found[1])) if found[1] else found[2]

    def words_to_the_end_of_list(self):
        """Takes the words up to `)`, behind a `(`."""
        self.text, words = self.text[1:], []
        while self.text[:1] != ")":
            if self.text[:1] == '"':
                words.append(self.quoted())
            elif self.text[:1] == ";":
                self.remarks()
            elif not self.span(lambda c: c in BLANKS + LINE_ENDS):
                words.append(self.run())
        self.text = self.text[1:]
        return words

    def token(self):
        """Takes the first token: nothing at the end, else its kind and its words."""
        self.remarks()
        first = self.text[:1]
        if not first:
            return None
        if self.span(lambda c: c in BLANKS):
            return "blank", []
        if first in LINE_ENDS:
            self.text = self.text[2 if self.text[:2] == "\r\n" else 1 :]
            return "line end", []
        if first == "(":
            return "list", self.words_to_the_end_of_list()
        if first == '"':
            return "word", [self.quoted()]
        word = self.run()
        return "at" if word == "@" else "word", [word]


def words_of(text):
    """The words of a text. A single `@` is none."""
    left, words = Text(text), []
    while token := left.token():
        if token[0] == "at":
            raise NoData
        words += token[1]
    return words


def item_of(text):
    """The first token of a text, where that is a word."""
    token = Text(text).token()
    if not token or token[0] != "word":
        raise NoData
    return token[1][0]


def items_of(text):
    """The items of a list: a backslash is dropped and the next character kept, and any other comma ends an item."""
    pieces, piece, left = [], "", iter(text)
    for c in left:
        if c == "\\":
            piece += next(left, "")
        elif c == ",":
            pieces.append(piece)
            piece = ""
        else:
            piece += c
    return [item_of(piece) for piece in (pieces + [piece] if piece else pieces)]


# ---- fields


class Words:
    """The words of a record, and how far they were taken."""

    def __init__(self, words):
        self.words = words

    def next(self):
        """The next word."""
        if not self.words:
            raise NoData
        word, self.words = self.words[0], self.words[1:]
        return word

    def rest(self):
        """All further words."""
        rest, self.words = self.words, []
        return rest

    def end(self):
        """No word is left."""
        if self.words:
            raise NoData

    def number(self, size):
        """A number of so many octets."""
        return number_of(self.next(), size).to_bytes(size, "big")

    def time(self, most=2**32 - 1):
        """A time to live, as four octets: runs of digits with a unit behind each, of which the last may have none."""
        word, units = self.next(), dict(w=604800, d=86400, h=3600, m=60, s=1)
        if not re.fullmatch(r"([0-9]+[wdhmsWDHMS])*([0-9]+[wdhmsWDHMS]?)", word, re.ASCII):
            raise NoData
        seconds = sum(int(n) * units[unit.lower() or "s"] for n, unit in re.findall(r"([0-9]+)([a-zA-Z]?)", word))
        if seconds > most:
            raise NoData
        return seconds.to_bytes(4, "big")

    def name(self):
        """A name."""
        return name_of(self.next())

    def kept(self):
        """The word's own octets."""
        return self.next().encode()


def number_of(word, size):
    """The number of a decimal word, which has at most so many octets."""
    if not re.fullmatch(r"\+?[0-9]+", word, re.ASCII) or int(word) >= 256**size:
        raise NoData
    return int(word)


def name_of(word):
    """The name of a text (RFC 1035, 5.1): labels with a dot between each two, and `.` for the root."""
    labels, label = [], b""
    word = "" if word == "." else word
    while word:
        found = re.match(r"\.|\\([0-9]{3})|\\([!-/:-~])|([!-\[\]-~])", word)
        if not found or found[1] and int(found[1]) > 255:
            raise NoData
        if found[0] == ".":
            labels, label = labels + [label], b""
        else:
            label += bytes([int(found[1])]) if found[1] else (found[2] or found[3]).encode()
        word = word[found.end() :]
    labels += [label] if label else []
    if any(not 1 <= len(x) <= 63 for x in labels) or sum(len(x) + 1 for x in labels) + 1 > 255:
        raise NoData
    return Name(labels)


def base64_octets(word):
    """The octets of base64 with its padding, whose surplus bits are 0 (RFC 4648, 4 and 3.5)."""
    try:
        octets = base64.b64decode(word.encode("ascii"), validate=True)
    except (ValueError, binascii.Error):
        raise NoData from None
    if base64.b64encode(octets).decode() != word:
        raise NoData
    return octets


def hexadecimal_octets(word):
    """The octets of hexadecimal digits, between which blanks and line ends may stand."""
    digits = re.sub("[ \t\r\n]", "", word)
    if len(digits) % 2 or not re.fullmatch("[0-9a-fA-F]*", digits):
        raise NoData
    return bytes.fromhex(digits)


def address_octets(word, kind):
    """The octets of an address's text (RFC 4291, 2.2, of IPv6)."""
    try:
        if "%" in word or not word.isascii():
            raise NoData
        return kind(word).packed
    except ipaddress.AddressValueError:
        raise NoData from None


# ---- records: each function gives the fields, as those of tests/plain_table.py


def one_name(words):
    """CNAME, NS, PTR and ANAME."""
    return [words.name()]


def start_of_authority(words):
    """SOA. Three of its times have 31 bits."""
    names, most = [words.name(), words.name()], 2**31 - 1
    return [*names, words.time(), words.time(most), words.time(most), words.time(most), words.time()]


def naming_authority(words):
    """NAPTR: the flags are letters and digits."""
    numbers, strings = [words.number(2), words.number(2)], [words.kept(), words.kept(), words.kept()]
    if strings[0] and not is_plain(strings[0]):
        raise NoData
    return [*numbers, *map(counted, strings), words.name()]


class TooLong(bytes):
    """Octets for which there is no length octet: what has them is not emitted."""


def counted(octets):
    """The octets of a character string, if it has at most 255."""
    return cut_string(octets) if len(octets) < 256 else TooLong(octets)


def openpgp_key(words):
    """OPENPGPKEY: one word of base64."""
    octets = base64_octets(words.next())
    words.end()
    return [octets]


def fingerprint(words):
    """SSHFP: two numbers, and one word of hexadecimal digits."""
    numbers, word = [words.number(1), words.number(1)], words.next()
    words.end()
    if not word:
        raise NoData
    return [*numbers, hexadecimal_octets(word)]


def association(words):
    """TLSA and SMIMEA: three numbers, and hexadecimal digits in any number of words, of one octet or more."""
    numbers = [words.number(1) for _ in range(3)]
    octets = hexadecimal_octets("".join(words.rest()))
    if not octets:
        raise NoData
    return [*numbers, octets]


def child_to_parent(words):
    """CSYNC: a serial, flags of which two bits are kept, and types by their names."""
    serial, flags = words.number(4), words.number(2)[1] & 3
    types = {type_of(word) for word in words.rest()}
    return [serial, bytes([0, flags]), plain_table.bitmap(types)]


def type_of(word):
    """The number of a type's name, or of `TYPE` and one to five digits (RFC 3597, 5)."""
    number = plain_table.NUMBERS.get(word)
    if number is None:
        found = re.fullmatch("TYPE([0-9]{1,5})", word)
        number = int(found[1]) if found else 65536
    if number > 65535:
        raise NoData
    return number


def service(words):
    """SVCB and HTTPS: a priority, a name and parameters. Keys that do not rise are read, and not emitted."""
    parts, last = [words.number(2), words.name()], -1
    for word in words.rest():
        key, value = parameter(word)
        is_short = isinstance(value, bytes) and not isinstance(value, TooLong) and len(value) < 65536
        parts.append(key.to_bytes(2, "big") + len(value).to_bytes(2, "big") + value if is_short and key > last else TooLong())
        last = key
    return parts


def key_of(word):
    """The number of a key's text: its name, or `key` and a number."""
    if word in plain_table.KEYS:
        return plain_table.KEYS.index(word)
    if not word.startswith("key"):
        raise NoData
    return number_of(word[3:], 2)


def parameter(word):
    """The key and the octets of a parameter's word. `key` and the number of a named key has octets without a format."""
    name, equals, value = word.partition("=")
    key = key_of(name)
    if name == "key65535" or value == '"':
        raise NoData
    if len(value) > 1 and value[0] == value[-1] == '"':
        value = value[1:-1]
    if name.startswith("key"):
        return key, value.encode()
    if bool(equals) == (name == "no-default-alpn"):
        raise NoData
    return key, b"" if name == "no-default-alpn" else VALUES[name](value)


def some(octets):
    """Octets of a list that is emitted with an item alone."""
    return octets or TooLong()


def protocols(value):
    """The octets of protocols, each of at most 255 octets."""
    items = [counted(item.encode()) for item in items_of(value)]
    return TooLong() if any(isinstance(x, TooLong) for x in items) else some(b"".join(items))


# The octets of each named key's value.
VALUES = {
    "mandatory": lambda value: some(b"".join(key_of(item).to_bytes(2, "big") for item in items_of(value))),
    "alpn": protocols,
    "port": lambda value: number_of(item_of(value), 2).to_bytes(2, "big"),
    "ipv4hint": lambda value: b"".join(address_octets(item, ipaddress.IPv4Address) for item in items_of(value)),
    "ech": lambda value: base64_octets(item_of(value)),
    "ipv6hint": lambda value: b"".join(address_octets(item, ipaddress.IPv6Address) for item in items_of(value)),
    "dohpath": lambda value: item_of(value).encode(),
}

RECORDS = {
    "ZERO": lambda words: [],
    "A": lambda words: [address_octets(words.next(), ipaddress.IPv4Address)],
    "AAAA": lambda words: [address_octets(words.next(), ipaddress.IPv6Address)],
    **dict.fromkeys(["ANAME", "CNAME", "NS", "PTR"], one_name),
    "MX": lambda words: [words.number(2), words.name()],
    "SRV": lambda words: [words.number(2), words.number(2), words.number(2), words.name()],
    "SOA": start_of_authority,
    "NAPTR": naming_authority,
    "HINFO": lambda words: [counted(words.kept()), counted(words.kept())],
    "TXT": lambda words: [counted(word.encode()) for word in words.rest()],
    "OPENPGPKEY": openpgp_key,
    "CERT": lambda words: [words.number(2), words.number(2), words.number(1), base64_octets(words.next())],
    "SSHFP": fingerprint,
    **dict.fromkeys(["TLSA", "SMIMEA"], association),
    "CAA": lambda words: [words.number(1), counted(words.kept()), words.kept()],
    "CSYNC": child_to_parent,
    **dict.fromkeys(["SVCB", "HTTPS"], service),
}


def parse(kind, text):
    """What the program prints of the text of a type: canonical and emitted octets, and no text. None where it is rejected.

    Canonical octets of what is not emitted are none, and emitted octets None.
    """
    name = plain_table.NAMES.get(kind)
    try:
        if name not in RECORDS:
            return None
        parts = RECORDS[name](Words(words_of(text)))
    except NoData:
        return None
    if any(isinstance(part, TooLong) for part in parts):
        return b"", None, None
    return plain_table.canonical(parts), plain_table.emitted(parts, plain_table.ROWS[kind][3]), None
