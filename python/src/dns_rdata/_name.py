"""Domain names."""

from __future__ import annotations

import functools
import re
from typing import List, Optional, Tuple

from . import _calls
from ._errors import Status, TextError, WireError
from ._rdtype import RdataType

# A token without an octet that ends or quotes one (RFC 1035, section 5.1), unless a backslash is before it.
_TOKEN = re.compile(r'(?:[^\\\t\n\r "();]|\\.)*\\?', re.DOTALL)


@functools.total_ordering
class Name:
    """A domain name: its uncompressed octets, case preserved (RFC 1035, section 3.1).

    Names are equal, and hashed, without regard to the case of ASCII letters. They are ordered label by label from the right (RFC
    4034, section 6.1), as dnspython orders them. RDATA with names is ordered otherwise: by its canonical octets.

    >>> origin = Name.from_text("example.com.")
    >>> name = Name.from_text("www", origin)
    >>> str(name), name.octets
    ('www.example.com.', b'\\x03www\\x07example\\x03com\\x00')
    >>> name == Name.from_text("WWW.Example.COM")
    True
    """

    __slots__ = ("_octets",)
    _octets: bytes

    def __init__(self, octets: _calls.Octets) -> None:
        """The name whose uncompressed octets are exactly these. Raises WireError if they are not one name."""
        self._octets = _calls.octets_of(octets)
        # What begins at offset 0 has no compression pointer.
        if _calls.name_length(self._octets, 0) != len(self._octets):
            raise WireError(Status.NAME)

    @classmethod
    def from_text(cls, text: str, origin: Optional[Name] = None) -> Name:
        """The name of a text in a zone file (RFC 1035, section 5.1). A relative name is completed by the origin, and `@` is the
        origin; without one, a relative name is read as if it had a dot at its end, and `@` is an error. Raises TextError if the text
        is not one name."""
        if not _TOKEN.fullmatch(text):
            raise TextError(Status.WRONG_WORD)
        return cls(_calls.name_from_text(text, origin.octets if origin else b""))

    @classmethod
    def from_wire(cls, message: _calls.Octets, offset: int = 0) -> Tuple[Name, int]:
        """The name that is encoded at an offset of a message, as that of a question at offset 12, and the number of octets that it
        takes there, with the zero octet or the compression pointer at its end. Raises WireError if no name is encoded there.

        >>> Name.from_wire(b"\\x01x\\x00\\x01y\\xc0\\x00", 3)
        (<Name y.x.>, 4)
        """
        octets = _calls.octets_of(message)
        length = _calls.name_length(octets, offset)
        # The RDATA of NS is a name.
        ((_, name),) = _calls.names(octets, offset, length, RdataType.NS)
        return cls(name), length

    @property
    def octets(self) -> bytes:
        """The uncompressed octets, case preserved, with the zero octet at the end."""
        return self._octets

    def labels(self) -> List[bytes]:
        """The labels from the left to the right, without the empty label of the root.

        >>> Name.from_text(r"a\\.b.c").labels()
        [b'a.b', b'c']
        """
        found, offset = [], 0
        while self._octets[offset]:
            end = offset + 1 + self._octets[offset]
            found.append(self._octets[offset + 1 : end])
            offset = end
        return found

    def to_text(self) -> str:
        """The text in a zone file, with a dot at its end."""
        return _calls.name_text(self._octets, 0)

    def __str__(self) -> str:
        return self.to_text()

    def __repr__(self) -> str:
        return f"<Name {self.to_text()}>"

    def __eq__(self, other: object) -> bool:
        if not isinstance(other, Name):
            return NotImplemented
        # Octets of length are at most 63, so they are no letters.
        return self._octets.lower() == other._octets.lower()

    def __lt__(self, other: object) -> bool:
        if not isinstance(other, Name):
            return NotImplemented
        return self._key() < other._key()

    def __hash__(self) -> int:
        return hash(self._octets.lower())

    def _key(self) -> Tuple[bytes, ...]:
        return tuple(label.lower() for label in reversed(self.labels()))
