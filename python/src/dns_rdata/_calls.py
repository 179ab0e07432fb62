"""The calls of dns_rdata.h by ctypes, over octets and numbers. `Rdata`, `Name` and `RdataType` are made of them.

    >>> message = bytes.fromhex("076578616d706c6503636f6d00" "000ac000")
    >>> check(message, 13, 4, 15)
    >>> text(message, 13, 4, 15)
    '10 example.com.'
    >>> wire(message, 13, 4, 15).hex()
    '000a076578616d706c6503636f6d00'
    >>> check(message, 13, 3, 15)
    Traceback (most recent call last):
    dns_rdata.WireError: LENGTH: wrong length of RDATA: 4 octets read, 3 expected
    >>> check(bytes.fromhex("000ac00400"), 0, 4, 15)
    Traceback (most recent call last):
    dns_rdata.WireError: LENGTH: wrong length of RDATA: 2 octets read, 4 expected: damaged domain name at offset 2
    >>> parse("10 mail", 15, b"\\7example\\0").hex()
    '000a046d61696c076578616d706c6500'

RDATA is octets of a message: the message, the offset of the RDATA in it, RDLENGTH, and the number of the type. The library is the
file that the environment's DNS_RDATA_LIBRARY names, else the one in this package, else the system's `libdns_rdata.so.0`.
"""

from __future__ import annotations

import ctypes
import operator
import os
import pathlib
from typing import Any, Callable, List, Optional, SupportsIndex, Tuple, Union

from ._errors import MessageError, Status, TextError, error_class

Octets = Union[bytes, bytearray, memoryview]


class Refusal(ctypes.Structure):
    """The numbers of an error. Those that a status says nothing about are 0."""

    _fields_ = [
        ("read", ctypes.c_size_t), ("len", ctypes.c_size_t), ("number", ctypes.c_uint32), ("cause", ctypes.c_uint32),
        ("offset", ctypes.c_size_t),
    ]


class Parts(ctypes.Structure):
    """Where the next part of RDATA is: its offset in the message, and the offset where the RDATA ends."""

    _fields_ = [("next", ctypes.c_size_t), ("end", ctypes.c_size_t)]


class Data(ctypes.Structure):
    """RDATA in a message: the message, its length, the offset of the RDATA, RDLENGTH, and the number of the type."""

    _fields_ = [
        ("message", ctypes.c_char_p), ("message_length", ctypes.c_size_t), ("offset", ctypes.c_size_t), ("length", ctypes.c_uint16),
        ("type", ctypes.c_uint16),
    ]


class TextFault(ctypes.Structure):
    """What the rejection of a text is about: the token in the text, the field's name in the reason, and the status of its octets."""

    _fields_ = [
        ("begin", ctypes.c_size_t), ("end", ctypes.c_size_t), ("field", ctypes.c_size_t), ("field_length", ctypes.c_size_t),
        ("cause", ctypes.c_uint32),
    ]


class Records(ctypes.Structure):
    """Where a walk over the records of a message is: the offset of the next record, how many precede it, how many there are, and one
    more than the labels and compression pointers that may still be gone over."""

    _fields_ = [("next", ctypes.c_size_t), ("passed", ctypes.c_size_t), ("until", ctypes.c_size_t), ("left", ctypes.c_size_t)]


class Record(ctypes.Structure):
    """A record, but for its RDATA: the offsets of the record and of its RDATA, its index in its section, and its fields."""

    _fields_ = [
        ("owner", ctypes.c_size_t), ("rdata", ctypes.c_size_t), ("index", ctypes.c_size_t), ("section", ctypes.c_uint32),
        ("ttl", ctypes.c_uint32), ("type", ctypes.c_uint16), ("rrclass", ctypes.c_uint16), ("length", ctypes.c_uint16),
        ("has_data", ctypes.c_uint16),
    ]


SIZE, SHORT, OCTETS, COUNT = ctypes.c_size_t, ctypes.c_uint16, ctypes.c_char_p, ctypes.POINTER(ctypes.c_size_t)
DATA, ROOM = ctypes.POINTER(Data), [OCTETS, SIZE, COUNT]
TELLS, NUMBER = ctypes.POINTER(ctypes.c_int32), ctypes.POINTER(ctypes.c_uint16)

# What each call takes: a list of octets is a pointer and a length.
CALLS: dict[str, List[Any]] = {
    "dns_rdata_check": [DATA, ctypes.POINTER(Refusal)],
    "dns_rdata_canonical": [DATA, *ROOM],
    "dns_rdata_wire": [DATA, *ROOM],
    "dns_rdata_text": [DATA, *ROOM],
    "dns_rdata_name": [DATA, SIZE, *ROOM, COUNT],
    "dns_rdata_part": [DATA, SIZE, NUMBER, COUNT, COUNT],
    "dns_rdata_parts_begin": [DATA, ctypes.POINTER(Parts)],
    "dns_rdata_parts_next": [DATA, ctypes.POINTER(Parts), NUMBER, COUNT, COUNT],
    "dns_rdata_compare": [DATA, DATA, TELLS],
    "dns_rdata_equal": [DATA, DATA, TELLS],
    "dns_rdata_compare_canonical": [OCTETS, SIZE, OCTETS, SIZE],
    "dns_rdata_parse": [OCTETS, SIZE, SHORT, OCTETS, SIZE, *ROOM],
    "dns_rdata_parse_why": [OCTETS, SIZE, SHORT, OCTETS, SIZE, *ROOM, ctypes.POINTER(TextFault)],
    "dns_rdata_records_begin": [OCTETS, SIZE, ctypes.POINTER(Records)],
    "dns_rdata_records_next": [OCTETS, SIZE, ctypes.POINTER(Records), ctypes.POINTER(Record)],
    "dns_rdata_name_length": [OCTETS, SIZE, SIZE, COUNT],
    "dns_rdata_name_text": [OCTETS, SIZE, SIZE, *ROOM],
    "dns_rdata_name_from_text": [OCTETS, SIZE, OCTETS, SIZE, *ROOM],
    "dns_rdata_type_text": [SHORT, *ROOM],
    "dns_rdata_type_number": [OCTETS, SIZE, NUMBER],
}


def _file() -> str:
    own = pathlib.Path(__file__).with_name("libdns_rdata.so.0")
    return os.environ.get("DNS_RDATA_LIBRARY") or (str(own) if own.is_file() else "libdns_rdata.so.0")


def _loaded(file: str) -> ctypes.CDLL:
    try:
        library = ctypes.CDLL(file)
        for name, takes in CALLS.items():
            call = getattr(library, name)
            call.argtypes = takes
            call.restype = ctypes.c_int32 if name == "dns_rdata_compare_canonical" else ctypes.c_uint32
    except (OSError, AttributeError) as error:
        hint = "install the wheel, which has the library, or set DNS_RDATA_LIBRARY to the file libdns_rdata.so.0 that `make -C c` makes"
        raise ImportError(f"the C library dns_rdata cannot be loaded: {error}: {hint}", name=__name__, path=file) from error
    return library


_library = _loaded(_file())
_byref = ctypes.byref
_SIZES = 1 << 8 * ctypes.sizeof(ctypes.c_size_t)


def data(message: Octets, offset: SupportsIndex, length: SupportsIndex, type_number: SupportsIndex) -> Data:
    """RDATA in a message. ctypes truncates a number that is too large without a word, so it is rejected here."""
    octets = octets_of(message)
    return Data(octets, len(octets), _size(offset), _short(length), _short(type_number))


def octets_of(octets: Octets) -> bytes:
    """The octets as bytes. What has no octets, as a number, raises TypeError."""
    return octets if type(octets) is bytes else bytes(memoryview(octets))


def _text_octets(text: Union[str, Octets]) -> bytes:
    """The octets of a text. One with surrogates, which UTF-8 cannot encode, raises TextError."""
    if not isinstance(text, str):
        return octets_of(text)
    try:
        return text.encode()
    except UnicodeEncodeError:
        raise TextError(Status.NOT_UTF8) from None


def _size(offset: SupportsIndex, what: str = "an offset") -> int:
    """The number, if it is a whole one: a float raises TypeError."""
    number = operator.index(offset)
    if not 0 <= number < _SIZES:
        raise OverflowError(f"{what} is a size")
    return number


def _short(number: SupportsIndex) -> int:
    short = operator.index(number)
    if not 0 <= short <= 65535:
        raise OverflowError("RDLENGTH and the number of a type have 16 bits")
    return short


def _want_ok(number: int, why: Optional[Refusal] = None) -> None:
    if number == Status.OK:
        return
    if number == Status.MEMORY:
        raise MemoryError
    status = Status(number)
    if why is None:
        raise error_class(status)(status)
    raise error_class(status)(status, Status(why.cause), why.offset, why.read, why.len, why.number)


def _filled(call: Callable[..., int], *given: Any) -> bytes:
    """What a call writes to a buffer, which is made as large as the call says."""
    room, count = 512, ctypes.c_size_t()
    while True:
        out = ctypes.create_string_buffer(room)
        status = call(*given, out, room, _byref(count))
        if status != Status.BUFFER:
            _want_ok(status)
            return out.raw[: count.value]
        room = count.value + 1


def check(message: Octets, offset: int, length: int, type_number: int) -> None:
    """Raises WireError if the octets are not RDATA of the type."""
    why = Refusal()
    _want_ok(_library.dns_rdata_check(_byref(data(message, offset, length, type_number)), _byref(why)), why)


def canonical(message: Octets, offset: int, length: int, type_number: int) -> bytes:
    """The canonical octets: this library's own form, for equality, order and hashing, and not for DNSSEC."""
    return _filled(_library.dns_rdata_canonical, _byref(data(message, offset, length, type_number)))


def wire(message: Octets, offset: int, length: int, type_number: int) -> bytes:
    """The uncompressed octets, names with their case preserved. A DNSSEC signer starts from these."""
    return _filled(_library.dns_rdata_wire, _byref(data(message, offset, length, type_number)))


def text(message: Octets, offset: int, length: int, type_number: int) -> str:
    """The text in a zone file (RFC 1035, section 5.1; RFC 9460, section 2.1; RFC 3597, section 5)."""
    return _filled(_library.dns_rdata_text, _byref(data(message, offset, length, type_number))).decode()


def names(message: Octets, offset: int, length: int, type_number: int) -> List[Tuple[int, bytes]]:
    """The names in the RDATA, in the order of the fields: the offset of each in the message, where it may end with a compression
    pointer, and its octets, uncompressed and with their case preserved."""
    name, count, begin = ctypes.create_string_buffer(255), ctypes.c_size_t(), ctypes.c_size_t()
    found: List[Tuple[int, bytes]] = []
    rdata = _byref(data(message, offset, length, type_number))
    while True:
        status = _library.dns_rdata_name(rdata, len(found), name, 255, _byref(count), _byref(begin))
        if status == Status.ABSENT:
            return found
        _want_ok(status)
        found.append((begin.value, name.raw[: count.value]))


def parts(message: Octets, offset: int, length: int, type_number: int) -> List[Tuple[int, int, int]]:
    """The options of OPT, or the parameters of SVCB and HTTPS, in the order of the message: the code or key of each, and the offset
    in the message and the number of the octets of its value. Other types have none."""
    number, begin, count = ctypes.c_uint16(), ctypes.c_size_t(), ctypes.c_size_t()
    found: List[Tuple[int, int, int]] = []
    cursor, rdata = Parts(), _byref(data(message, offset, length, type_number))
    status = _library.dns_rdata_parts_begin(rdata, _byref(cursor))
    while status == Status.OK:
        status = _library.dns_rdata_parts_next(rdata, _byref(cursor), _byref(number), _byref(begin), _byref(count))
        if status == Status.OK:
            found.append((number.value, begin.value, count.value))
    if status != Status.ABSENT:
        _want_ok(status)
    return found


def _told(call: Callable[..., int], first: Data, second: Data) -> int:
    told = ctypes.c_int32()
    _want_ok(call(_byref(first), _byref(second), _byref(told)))
    return told.value


def compare(first: Data, second: Data) -> int:
    """-1, 0 or 1: the order of the canonical octets of two records of one type."""
    return _told(_library.dns_rdata_compare, first, second)


def equal(first: Data, second: Data) -> bool:
    """Whether the canonical octets of two records of one type are the same."""
    return _told(_library.dns_rdata_equal, first, second) == 1


def compare_canonical(octets: Octets, other: Octets) -> int:
    """-1, 0 or 1: the order of two lists of octets, of which a beginning of the other comes first."""
    first, second = octets_of(octets), octets_of(other)
    order: int = _library.dns_rdata_compare_canonical(first, len(first), second, len(second))
    return order


def parse(text: Union[str, Octets], type_number: int, origin: Octets = b"") -> bytes:
    """The uncompressed octets of the RDATA that a zone file's text gives, which is what follows the type (RFC 1035, section 5.1; RFC
    9460, section 2.1; RFC 3597, section 5). `origin` is the octets of a name, by which relative names are completed. What `text`
    writes is read again as the octets of `wire`, whatever the origin."""
    octets, name = _text_octets(text), octets_of(origin)
    given = octets, len(octets), _short(type_number), name, len(name)
    try:
        return _filled(_library.dns_rdata_parse, *given)
    except TextError as error:
        raise _explained(error.status, *given) from None


def _explained(status: Status, *given: Any) -> TextError:
    """The error of a text, with its reason, field and token. The text is read once more."""
    out, count, fault = ctypes.create_string_buffer(512), ctypes.c_size_t(), TextFault()
    if _library.dns_rdata_parse_why(*given, out, len(out), _byref(count), _byref(fault)) != Status.OK:
        return TextError(status)
    reason = out.raw[: count.value].decode()
    field = reason[fault.field : fault.field + fault.field_length]
    token = (fault.begin, fault.end) if fault.end else None
    return TextError(status, Status(fault.cause) if fault.cause else None, reason or None, field or None, token)


def name_length(message: Octets, offset: int) -> int:
    """The number of octets that the name at an offset of the message takes there, with the zero octet or the compression pointer at its
    end. Raises WireError if no name is encoded there."""
    octets, count = octets_of(message), ctypes.c_size_t()
    _want_ok(_library.dns_rdata_name_length(octets, len(octets), _size(offset), _byref(count)))
    return count.value


def name_text(message: Octets, offset: int) -> str:
    """The text of the name at an offset of the message, with a dot at its end. Raises WireError if no name is encoded there."""
    octets = octets_of(message)
    return _filled(_library.dns_rdata_name_text, octets, len(octets), _size(offset)).decode()


def name_from_text(text: Union[str, Octets], origin: Octets = b"") -> bytes:
    """The uncompressed octets of the name that a zone file's text is. `origin` is the octets of a name, by which a relative name is
    completed. Raises TextError if the text is not one name."""
    octets, name = _text_octets(text), octets_of(origin)
    return _filled(_library.dns_rdata_name_from_text, octets, len(octets), name, len(name))


def records_begin(message: bytes, limit: int) -> Records:
    """A cursor before the first record of a message, after its questions, from which the walk may go over `limit` labels
    and compression pointers. Raises MessageError if the message has no header, or a damaged question."""
    most = _size(limit, "a limit")
    cursor = Records()
    _want_ok(_library.dns_rdata_records_begin(message, len(message), _byref(cursor)))
    cursor.left = min(most + 1, _SIZES - 1)
    return cursor


def records_next(message: bytes, cursor: Records) -> Optional[Tuple[Status, Record]]:
    """The record at the cursor, which is moved, with OK or the status with which its RDATA is rejected. None if no record is left.
    Raises MessageError if the record is damaged or has too many labels and compression pointers: the walk has ended."""
    found, offset = Record(), cursor.next
    status = Status(_library.dns_rdata_records_next(message, len(message), _byref(cursor), _byref(found)))
    if status == Status.ABSENT:
        return None
    if status >= Status.HEADER:
        raise MessageError(status, offset)
    return status, found


def type_text(type_number: int) -> str:
    """The name of a type in capitals, or TYPE and its number (RFC 3597, section 5)."""
    return _filled(_library.dns_rdata_type_text, _short(type_number)).decode()


def type_number(text: str) -> int:
    """The number of the type with this name of IANA's registry, in either case, or with the number after TYPE."""
    octets, number = _text_octets(text), ctypes.c_uint16()
    _want_ok(_library.dns_rdata_type_number(octets, len(octets), _byref(number)))
    return number.value
