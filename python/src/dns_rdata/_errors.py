"""Why calls fail."""

from __future__ import annotations

from typing import Optional, Tuple

from ._open import OpenEnum

__all__ = ["MessageError", "RdataError", "Status", "TextError", "WireError"]


class Status(OpenEnum):
    """What a call returns: the names and numbers of dns_rdata.h. A later library may have others, which are named by their number,
    as STATUS29: treat them by their range."""

    OK = 0
    MEMORY = 1
    BUFFER = 2
    TOO_LONG = 3
    ORIGIN = 6
    NOT_UTF8 = 7
    ABSENT = 9
    OTHER_TYPE = 10
    MISSING_OCTETS = 16
    LENGTH = 17
    NEVER = 18
    NO_TYPE = 19
    NAME = 20
    BITMAP = 21
    CAA_TAG = 22
    NAPTR_FLAGS = 23
    CSYNC_FLAGS = 24
    ADDRESS_FAMILY = 25
    MISSING_VALUE = 26
    PARAMETER_ORDER = 27
    UTF8 = 28
    HEADER = 32
    QUESTION = 33
    RECORD = 34
    LIMIT = 35
    MISSING_WORD = 48
    WRONG_WORD = 49
    UNSUPPORTED_TYPE = 50
    WRONG_VALUE = 52

    @classmethod
    def _others(cls) -> Tuple[str, int]:
        return "STATUS", 1 << 32


_MEANINGS = {
    Status.BUFFER: "the buffer is too small",
    Status.TOO_LONG: "more than 65535 octets",
    Status.ORIGIN: "the origin is not a name",
    Status.NOT_UTF8: "the text is not UTF-8",
    Status.ABSENT: "there is nothing with this index, or nothing is left",
    Status.OTHER_TYPE: "the types differ",
    Status.MISSING_OCTETS: "octets are missing at the end of the message",
    Status.LENGTH: "wrong length of RDATA",
    Status.NEVER: "RDATA of this type is never read",
    Status.NO_TYPE: "unknown name of a type",
    Status.NAME: "damaged domain name",
    Status.BITMAP: "damaged type bitmap",
    Status.CAA_TAG: "invalid CAA tag",
    Status.NAPTR_FLAGS: "invalid NAPTR flags",
    Status.CSYNC_FLAGS: "unknown CSYNC flags",
    Status.ADDRESS_FAMILY: "unknown address family",
    Status.MISSING_VALUE: "a service parameter without its value",
    Status.PARAMETER_ORDER: "service parameters out of order",
    Status.UTF8: "octets that are not UTF-8",
    Status.HEADER: "the message is shorter than a header",
    Status.QUESTION: "a damaged question",
    Status.RECORD: "a damaged record",
    Status.LIMIT: "too many labels and compression pointers",
    Status.MISSING_WORD: "a token is missing",
    Status.WRONG_WORD: "a wrong token",
    Status.UNSUPPORTED_TYPE: "no text of this type is read",
    Status.WRONG_VALUE: "a wrong name or value",
}

# The statuses whose errors have a number: a type, flags or a family.
_NUMBERED = (Status.NEVER, Status.CSYNC_FLAGS, Status.ADDRESS_FAMILY)


class RdataError(ValueError):
    """Why a call fails. If an allocation fails, it is a MemoryError instead.

    `status` is the status. The other numbers are those of RDATA in a message, and otherwise None:

    - `cause` is the record's own error: the status that there would be if the number of octets were not tested, and OK if the
      record has no error and takes another number of octets than RDLENGTH. The number of octets is tested first, so the status
      of damaged RDATA is mostly LENGTH: the cause says more.
    - `offset` is where in the message reading stopped.
    - `read` and `expected` are the octets that were read, and that there should have been, with the status LENGTH.
    - `number` is the type, the flags or the family that the cause NEVER, CSYNC_FLAGS or ADDRESS_FAMILY is about.
    """

    def __init__(
        self,
        status: Status,
        cause: Optional[Status] = None,
        offset: Optional[int] = None,
        read: Optional[int] = None,
        expected: Optional[int] = None,
        number: Optional[int] = None,
    ) -> None:
        super().__init__(status, cause, offset, read, expected, number)
        self.status, self.cause, self.offset = status, cause, offset
        self.read, self.expected = (read, expected) if status == Status.LENGTH else (None, None)
        self.number = number if cause in _NUMBERED else None

    def __str__(self) -> str:
        text = f"{self.status.name}: {_MEANINGS.get(self.status, self.status.name)}"
        if self.read is not None:
            text += f": {self.read} octets read, {self.expected} expected"
        if self.cause and self.cause != self.status:
            text += f": {_MEANINGS.get(self.cause, self.cause.name)}"
        if self.number is not None:
            text += f" ({self.number})"
        if self.cause and self.cause != Status.NEVER:
            text += f" at offset {self.offset}"
        return text


class WireError(RdataError):
    """The octets are not RDATA of the type, or not a name."""


class MessageError(RdataError):
    """A message is damaged, so that a walk over its records ends: HEADER, QUESTION, RECORD or LIMIT.

    `offset` is that of the record in the message, and None if the damage precedes the records."""

    def __init__(self, status: Status, offset: Optional[int] = None) -> None:
        super().__init__(status, offset=offset)
        self.args = (status, offset)

    def __str__(self) -> str:
        text = super().__str__()
        return text if self.offset is None else f"{text} at offset {self.offset}"


class TextError(RdataError):
    """The text is not that of RDATA of the type, not a name, or not the name of a type.

    Of a text of RDATA the error has more, each None if it is not known:

    - `reason` is what is wrong, and with the status MISSING_WORD the field whose token is missing.
    - `field` is the name of the field, as "MX exchange".
    - `token` is the offsets in the text, in octets, where the token starts and ends.
    - `cause` is the status with which the octets of the text are rejected.
    """

    def __init__(
        self,
        status: Status,
        cause: Optional[Status] = None,
        reason: Optional[str] = None,
        field: Optional[str] = None,
        token: Optional[Tuple[int, int]] = None,
    ) -> None:
        super().__init__(status, cause)
        self.args = (status, cause, reason, field, token)
        self.reason, self.field, self.token = reason, field, token

    def __str__(self) -> str:
        text = f"{self.status.name}: {_MEANINGS.get(self.status, self.status.name)}"
        if self.cause:
            text += f": {_MEANINGS.get(self.cause, self.cause.name)}"
        if self.reason:
            text += f": {self.reason}"
        return text if self.token is None else f"{text} at octet {self.token[0]}"


def error_class(status: Status) -> type[RdataError]:
    """The class of the exception for a status."""
    if status >= Status.MISSING_WORD or status in (Status.NO_TYPE, Status.NOT_UTF8):
        return TextError
    if status >= Status.HEADER:
        return MessageError
    return WireError if status >= Status.MISSING_OCTETS else RdataError
