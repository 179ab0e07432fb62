"""dnspython. `wire` reads lines `TYPE PLACE LENGTH OCTETS` and calls `dns.rdata.from_wire`; `print` calls `to_text`, too, and `digest`
calls `to_digestable`, which gives what DNSSEC signs; `text` reads lines of a type's number, a tab and zone text, and calls
`dns.rdata.from_text` with the origin example.com. peers.py has the protocol."""
import sys

import dns.name
import dns.rdata
import dns.rdatatype

ORIGIN = dns.name.from_text("example.com.")


def wire(line):
    kind, place, length, octets = line.split()
    return dns.rdata.from_wire(1, int(kind), bytes.fromhex(octets), int(place), int(length))


def text(line):
    kind, data = line.split("\t", 1)
    return dns.rdata.from_text(1, int(kind), data, ORIGIN, False)


for line in sys.stdin:
    line = line.rstrip("\n")
    known = dns.rdata.get_rdata_class(1, int(line.split(None, 1)[0])) is not dns.rdata.GenericRdata
    if not known:
        print("unknown\t-")
        continue
    try:
        found = (text if sys.argv[1] == "text" else wire)(line)
        shown = {"print": found.to_text, "digest": lambda: found.to_digestable(ORIGIN).hex()}.get(sys.argv[1], lambda: found.to_wire().hex())
        print(f"accepted\t{shown() or '-'}")
    except Exception as error:  # pylint: disable=broad-except
        print(f"rejected\t{type(error).__name__}: {error}".replace("\n", " "))
