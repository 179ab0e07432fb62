"""The data of DNS resource records (RDATA): checked, compared, printed and parsed, by a library in which every function is proved.

>>> from dns_rdata import Rdata, RdataType, WireError
>>> message = bytes.fromhex("074578616d706c6503636f6d00" "000ac000")
>>> mx = Rdata.from_wire(RdataType.MX, message, 13, 4)
>>> mx.to_text()
'10 Example.com.'
>>> [found.name.to_text() for found in mx.names()]
['Example.com.']
>>> try:
...     Rdata.from_wire(RdataType.MX, bytes.fromhex("000ac00400"), 0, 4)
... except WireError as error:
...     print(error.status.name, error.cause.name, error.offset)
LENGTH NAME 2

Importing raises ImportError, which says what to do, if the C library cannot be loaded.
"""

from ._errors import MessageError, RdataError, Status, TextError, WireError
from ._name import Name
from ._rdata import FoundName, Part, Rdata
from ._rdtype import RdataType
from ._records import Record, Section, records

__all__ = [
    "FoundName", "MessageError", "Name", "Part", "Rdata", "RdataError", "RdataType", "Record", "Section", "Status", "TextError", "WireError",
    "records",
]
__version__ = "0.1.0"

# Tracebacks say dns_rdata, and not the module in it.
MessageError.__module__ = RdataError.__module__ = TextError.__module__ = WireError.__module__ = __name__
