"""The records of a message."""

from __future__ import annotations

import enum
from typing import Iterator, Optional

from . import _calls
from ._errors import Status, WireError
from ._name import Name
from ._rdata import Rdata
from ._rdtype import RdataType

# The octets of the type, the class, the TTL and RDLENGTH, between the owner and the RDATA.
_FIXED = 10


class Section(enum.IntEnum):
    """Where in a message a record is (RFC 1035, section 4.1)."""

    ANSWER = 1
    AUTHORITY = 2
    ADDITIONAL = 3


class Record:
    """A record of a message (RFC 1035, section 4.1.3): see `records`. It does not change."""

    __slots__ = ("_message", "_found", "_rdata", "_error")

    def __init__(self, message: bytes, found: _calls.Record, rdata: Optional[Rdata], error: Optional[WireError]) -> None:
        self._message, self._found, self._rdata, self._error = message, found, rdata, error

    @property
    def offset(self) -> int:
        """The offset of the record in the message, where its owner is encoded."""
        return int(self._found.owner)

    @property
    def owner(self) -> Name:
        """The name of its owner, uncompressed and with its case preserved."""
        # The octets of the owner are the RDATA of a record of type NS.
        length = self._found.rdata - _FIXED - self._found.owner
        (_, octets), *_ = _calls.names(self._message, self._found.owner, length, RdataType.NS)
        return Name(octets)

    @property
    def section(self) -> Section:
        """The section that the record is in."""
        return Section(self._found.section)

    @property
    def index(self) -> int:
        """The index of the record in its section, counted from 0."""
        return int(self._found.index)

    @property
    def rdtype(self) -> RdataType:
        """The type."""
        return RdataType(self._found.type)

    @property
    def rdclass(self) -> int:
        """The class: 1 for IN (RFC 1035, section 3.2.4). Of OPT, the size of UDP payloads."""
        return int(self._found.rrclass)

    @property
    def ttl(self) -> int:
        """The TTL in seconds, as it is encoded. Of OPT, other things (RFC 6891, section 6.1.3)."""
        return int(self._found.ttl)

    @property
    def rdata(self) -> Optional[Rdata]:
        """The RDATA. None if it is rejected, and for a record of UPDATE that has no data (class ANY or NONE, RDLENGTH 0: RFC 2136,
        sections 2.4 and 2.5)."""
        return self._rdata

    @property
    def error(self) -> Optional[WireError]:
        """Why the RDATA is rejected: the error of `Rdata.from_wire`. None if it is not."""
        return self._error

    @property
    def rdata_offset(self) -> int:
        """The offset of the RDATA in the message."""
        return int(self._found.rdata)

    @property
    def rdata_octets(self) -> bytes:
        """The octets of the RDATA as they are in the message, RDLENGTH many, also if it is rejected."""
        return self._message[self._found.rdata : self._found.rdata + self._found.length]

    def __repr__(self) -> str:
        rest = f"rejected: {self._error}" if self._error else self._rdata or "without data"
        rdclass = "IN" if self.rdclass == 1 else f"CLASS{self.rdclass}"
        return f"<Record {self.owner} {self.ttl} {rdclass} {self.rdtype.name} {rest}>"


def records(message: _calls.Octets, limit: int = 262144) -> Iterator[Record]:
    """Goes over the records of a message: answers, authorities and additional records, as many as its header counts (RFC 1035, section
    4.1).

    A record whose RDATA is rejected has an `error` and no `rdata`, and the walk goes on after it. The walk raises MessageError if the
    message has no header, if a question or a record is damaged, or if the names have more than `limit` labels and compression pointers.
    The names of a hostile message can go over the same ones thousands of times; real messages need a few for each name.

    >>> message = bytes.fromhex("000080000001000100000000" "0161000001" "0001" "c00c" "00010001" "0000003c" "0004" "c0000201")
    >>> for record in records(message):
    ...     print(record.section.name, record.owner, record.ttl, record.rdtype.name, record.rdata)
    ANSWER a. 60 A 192.0.2.1
    """
    octets = _calls.octets_of(message)
    cursor = _calls.records_begin(octets, limit)
    while True:
        found = _calls.records_next(octets, cursor)
        if found is None:
            return
        yield _record(octets, *found)


def _record(message: bytes, status: Status, found: _calls.Record) -> Record:
    if status != Status.OK:
        return Record(message, found, None, _rejected(message, status, found))
    if not found.has_data:
        return Record(message, found, None, None)
    return Record(message, found, Rdata._checked(found.type, message, found.rdata, found.length), None)


def _rejected(message: bytes, status: Status, found: _calls.Record) -> WireError:
    """The error of RDATA that is rejected, with its numbers, which the walk does not tell."""
    try:
        _calls.check(message, found.rdata, found.length, found.type)
    except WireError as error:
        return error
    # Unreachable: the call that checks the RDATA alone rejects it, too.
    return WireError(status)
