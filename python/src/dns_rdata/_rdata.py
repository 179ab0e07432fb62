"""RDATA that was checked."""

from __future__ import annotations

import functools
from typing import List, NamedTuple, Optional, Union

from . import _calls
from ._errors import RdataError
from ._name import Name
from ._rdtype import RdataType


class FoundName(NamedTuple):
    """A name in RDATA."""

    offset: int
    """The offset of the name in the message, where it may end with a compression pointer."""
    name: Name
    """The name, uncompressed and with its case preserved."""


class Part(NamedTuple):
    """An option of OPT (RFC 6891, section 6.1.2), or a parameter of SVCB and HTTPS (RFC 9460, section 2.2)."""

    number: int
    """The code of the option, or the key of the parameter."""
    offset: int
    """The offset of its value in the message."""
    value: bytes
    """The octets of its value."""


# The types with character strings: the octets before the first one, and how many there are.
_STRINGS = {RdataType.TXT: (0, 65535), RdataType.HINFO: (0, 2), RdataType.NAPTR: (4, 3)}


@functools.total_ordering
class Rdata:
    """The RDATA of a record, which was checked: its octets are RDATA of its type. It does not change.

    RDATA is equal, ordered and hashed by its type and then by its canonical octets, wherever it is and however its names are
    compressed. `sorted(many, key=Rdata.to_canonical)` is faster than `sorted(many)` if all are of one type.

    >>> message = bytes.fromhex("074578616d706c6503636f6d00" "000ac000")
    >>> mx = Rdata.from_wire(RdataType.MX, message, 13, 4)
    >>> mx
    <Rdata MX 10 Example.com.>
    >>> mx.to_wire()
    b'\\x00\\n\\x07Example\\x03com\\x00'
    >>> mx == Rdata.from_text(RdataType.MX, "10 example.com.")
    True
    """

    __slots__ = ("_rdtype", "_message", "_offset", "_length")
    _rdtype: RdataType
    _message: bytes
    _offset: int
    _length: int

    def __init__(self, rdtype: int, wire: _calls.Octets) -> None:
        """All of these octets, if they are RDATA of the type: `from_wire` without an offset and a length. Raises WireError if they
        are not, and OverflowError if they are more than 65535 or the number of the type has more than 16 bits."""
        octets = _calls.octets_of(wire)
        _calls.check(octets, 0, len(octets), rdtype)
        self._rdtype, self._message, self._offset, self._length = RdataType(rdtype), octets, 0, len(octets)

    @classmethod
    def _checked(cls, rdtype: int, message: bytes, offset: int, length: int) -> Rdata:
        """RDATA that was checked."""
        rdata = cls.__new__(cls)
        rdata._rdtype, rdata._message, rdata._offset, rdata._length = RdataType(rdtype), message, offset, length
        return rdata

    @classmethod
    def from_wire(cls, rdtype: int, wire: _calls.Octets, offset: int = 0, length: Optional[int] = None) -> Rdata:
        """The `length` octets (RDLENGTH) at an offset of a message, if they are RDATA of the type; without a length, those to the
        end of the message.

        Raises WireError if they are not, whose `cause` is the record's own error and whose `offset` is where reading stopped;
        OverflowError if a number has too many bits.

        >>> Rdata.from_wire(RdataType.MX, b"\\0\\x0a\\xc0\\4\\0", 0, 4)
        Traceback (most recent call last):
        dns_rdata.WireError: LENGTH: wrong length of RDATA: 2 octets read, 4 expected: damaged domain name at offset 2
        """
        message = _calls.octets_of(wire)
        size = max(len(message) - offset, 0) if length is None else length
        _calls.check(message, offset, size, rdtype)
        return cls._checked(rdtype, message, offset, size)

    @classmethod
    def from_text(cls, rdtype: int, text: Union[str, _calls.Octets], origin: Optional[Name] = None) -> Rdata:
        """The RDATA of a zone file's text, which is what follows the type (RFC 1035, section 5.1; RFC 9460, section 2.1). The
        unknown-data form of RFC 3597 is read of every type. Relative names are completed by the origin, and `@` is the origin; without
        one, relative names are read as if they had a dot at their end, and `@` is an error.

        Raises TextError if the text is not that of RDATA of the type.

        >>> Rdata.from_text(RdataType.MX, "10 mail", Name.from_text("example.com."))
        <Rdata MX 10 mail.example.com.>
        """
        return cls(rdtype, _calls.parse(text, rdtype, origin.octets if origin else b""))

    @property
    def rdtype(self) -> RdataType:
        """The type."""
        return self._rdtype

    @property
    def offset(self) -> int:
        """The offset of the RDATA in the message."""
        return self._offset

    @property
    def octets(self) -> bytes:
        """The octets of the RDATA as they are in the message: names may end with compression pointers."""
        return self._message[self._offset : self._offset + self._length]

    def to_text(self) -> str:
        """The text in a zone file (RFC 1035, section 5.1; RFC 9460, section 2.1). Types without a
        format of their own, OPT, NULL, ANAME, 0, and RDATA that has no such text are written in the unknown-data form of RFC 3597.
        Raises RdataError (TOO_LONG) if the RDATA has more than 65535 octets with its names uncompressed."""
        return _calls.text(self._message, self._offset, self._length, self._rdtype)

    def to_wire(self) -> bytes:
        """The uncompressed octets, names with their case preserved. For types with a format of their own they mean the same in every
        message, and a DNSSEC signer starts from them; the octets of all other types are copied. Raises RdataError
        (TOO_LONG) if they are more than 65535."""
        return _calls.wire(self._message, self._offset, self._length, self._rdtype)

    def to_canonical(self) -> bytes:
        """The canonical octets: this library's own form, for equality, order and hashing, and not for DNSSEC. RDATA of one type is
        equal exactly if its canonical octets are the same. Raises RdataError (TOO_LONG) if they are more than 65535."""
        return _calls.canonical(self._message, self._offset, self._length, self._rdtype)

    def names(self) -> List[FoundName]:
        """The names in the RDATA, in the order of the fields: two of SOA, and one or none of the other types.

        >>> Rdata.from_text(RdataType.SRV, "1 2 443 host.example.").names()
        [FoundName(offset=6, name=<Name host.example.>)]
        """
        found = _calls.names(self._message, self._offset, self._length, self._rdtype)
        return [FoundName(offset, Name(octets)) for offset, octets in found]

    def parts(self) -> List[Part]:
        """The options of OPT, or the parameters of SVCB and HTTPS, in the order of the message. Other types have none.

        >>> Rdata.from_text(RdataType.HTTPS, "1 . alpn=h2 port=443").parts()
        [Part(number=1, offset=7, value=b'\\x02h2'), Part(number=3, offset=14, value=b'\\x01\\xbb')]
        """
        found = _calls.parts(self._message, self._offset, self._length, self._rdtype)
        return [Part(number, begin, self._message[begin : begin + count]) for number, begin, count in found]

    def strings(self) -> List[bytes]:
        """The character strings (RFC 1035, section 3.3) of TXT, HINFO and NAPTR, in the order of the message, each without the octet
        of its length. Other types have none.

        >>> Rdata.from_text(RdataType.TXT, '"v=abc" x').strings()
        [b'v=abc', b'x']
        """
        found: List[bytes] = []
        octets = self.octets
        offset, many = _STRINGS.get(self._rdtype, (0, 0))
        while offset < len(octets) and len(found) < many:
            end = offset + 1 + octets[offset]
            found.append(octets[offset + 1 : end])
            offset = end
        return found

    def __str__(self) -> str:
        return self.to_text()

    def __repr__(self) -> str:
        try:
            return f"<Rdata {self._rdtype.name} {self.to_text()}>"
        except RdataError as error:
            return f"<Rdata {self._rdtype.name}, {error}>"

    def _data(self) -> _calls.Data:
        return _calls.data(self._message, self._offset, self._length, self._rdtype)

    def __eq__(self, other: object) -> bool:
        if not isinstance(other, Rdata):
            return NotImplemented
        return self._rdtype == other._rdtype and _calls.equal(self._data(), other._data())

    def __lt__(self, other: object) -> bool:
        if not isinstance(other, Rdata):
            return NotImplemented
        if self._rdtype != other._rdtype:
            return self._rdtype < other._rdtype
        return _calls.compare(self._data(), other._data()) < 0

    def __hash__(self) -> int:
        try:
            return hash((self._rdtype, self.to_canonical()))
        except RdataError:
            # More than 65535 canonical octets: equal RDATA has as many.
            return hash(self._rdtype)
