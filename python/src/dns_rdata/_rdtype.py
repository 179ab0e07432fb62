"""The types of resource records."""

from __future__ import annotations

from typing import Tuple

from . import _calls
from ._open import OpenEnum


class RdataType(OpenEnum):
    """The type of a resource record, by its number. The members are the types that the library has names for; every other number
    of 16 bits is a type, too, whose name is TYPE and the number (RFC 3597, section 5).

    >>> RdataType.from_text("MX")
    <RdataType.MX: 15>
    >>> RdataType(4711).to_text()
    'TYPE4711'
    """

    ZERO = 0
    A = 1
    NS = 2
    CNAME = 5
    SOA = 6
    NULL = 10
    PTR = 12
    HINFO = 13
    MX = 15
    TXT = 16
    SIG = 24
    KEY = 25
    AAAA = 28
    SRV = 33
    NAPTR = 35
    CERT = 37
    DNAME = 39
    OPT = 41
    DS = 43
    SSHFP = 44
    RRSIG = 46
    NSEC = 47
    DNSKEY = 48
    NSEC3 = 50
    NSEC3PARAM = 51
    TLSA = 52
    SMIMEA = 53
    CDS = 59
    CDNSKEY = 60
    OPENPGPKEY = 61
    CSYNC = 62
    SVCB = 64
    HTTPS = 65
    TSIG = 250
    IXFR = 251
    AXFR = 252
    ANY = 255
    CAA = 257
    ANAME = 65305

    @classmethod
    def _others(cls) -> Tuple[str, int]:
        return "TYPE", 1 << 16

    @classmethod
    def from_text(cls, text: str) -> RdataType:
        """The type with this name of IANA's registry, in either case, or with the number after TYPE. Raises TextError if there is
        none."""
        return cls(_calls.type_number(text))

    def to_text(self) -> str:
        """The name in capitals, or TYPE and the number."""
        return self.name

    def __str__(self) -> str:
        return self.to_text()

    def __format__(self, format_spec: str) -> str:
        """As text, or as a number if there is a format: `f"{rdtype:d}"`."""
        return format(int(self) if format_spec else self.to_text(), format_spec)
