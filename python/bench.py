"""Microseconds of one call over the samples of tests/programs/rdata_bench, the least of seven parts, and of dnspython where it is installed.

    DNS_RDATA_LIBRARY=../c/out/libdns_rdata.so.0 PYTHONPATH=src python3 bench.py [ROUNDS]
"""

import pathlib
import sys
import timeit

from dns_rdata import Rdata, RdataType, _calls

try:
    import dns.rdata
    import dns.rdataclass
except ImportError:
    dns = None

PARTS = 7


def samples():
    path = pathlib.Path(__file__).resolve().parents[1] / "tests/programs/rdata_bench/data/samples.txt"
    for line in path.read_text().splitlines():
        name, _, _, octets = line.split()
        yield RdataType.from_text(name), bytes.fromhex("" if octets == "-" else octets)


def jobs(rdtype, octets):
    """The calls that are measured, by their names."""
    rdata, equal = Rdata(rdtype, octets), Rdata(rdtype, octets)
    length, number = len(octets), int(rdtype)
    yield "_calls.check", lambda: _calls.check(octets, 0, length, number)
    yield "from_wire", lambda: Rdata.from_wire(rdtype, octets, 0, length)
    yield "to_text", rdata.to_text
    yield "to_canonical", rdata.to_canonical
    yield "==", lambda: rdata == equal
    if dns:
        peer = dns.rdata.from_wire(dns.rdataclass.IN, number, octets, 0, length)
        yield "dnspython from_wire", lambda: dns.rdata.from_wire(dns.rdataclass.IN, number, octets, 0, length)
        yield "dnspython to_text", peer.to_text
        yield "dnspython to_digestable", peer.to_digestable


def main():
    rounds = int(sys.argv[1]) if len(sys.argv) > 1 else 2000
    sums, count = {}, 0
    for rdtype, octets in samples():
        count += 1
        least = {name: min(timeit.repeat(job, number=rounds, repeat=PARTS)) / rounds * 1e6 for name, job in jobs(rdtype, octets)}
        if count == 1:
            print("type", *least, sep="\t")
        print(rdtype.name, *(f"{it:.2f}" for it in least.values()), sep="\t")
        sums = {name: sums.get(name, 0) + it for name, it in least.items()}
    print("mean", *(f"{it / count:.2f}" for it in sums.values()), sep="\t")


main()
