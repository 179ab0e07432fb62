"""dnspython: `dns.rdata.from_wire`. Reads lines `TYPE PLACE LENGTH OCTETS`; run.py has the protocol."""
import sys

import dns.rdata

for line in sys.stdin:
    kind, place, length, octets = line.split()
    try:
        rdata = dns.rdata.from_wire(1, int(kind), bytes.fromhex(octets), int(place), int(length))
        print(f"accepted\t{rdata.to_wire().hex() or '-'}")
    except Exception as error:  # pylint: disable=broad-except
        print(f"rejected\t{type(error).__name__}: {error}".replace("\n", " "))
