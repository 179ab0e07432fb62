"""Compares the package with dnspython, where that is installed: octets and texts of random RDATA, of the benchmark's samples and of the
golden tests' messages. The last two need the repository."""

import pathlib
import random
import unittest

from dns_rdata import Rdata, RdataType, WireError

try:
    import dns.exception
    import dns.rdata
    import dns.rdataclass
except ImportError:
    dns = None

PROGRAMS = pathlib.Path(__file__).resolve().parents[2] / "tests/programs"


def read_by_peer(number, message, offset, length):
    return dns.rdata.from_wire(dns.rdataclass.IN, number, message, offset, length)


def samples():
    """The samples of the benchmark: type, message, offset, RDLENGTH."""
    path = PROGRAMS / "rdata_bench/data/samples.txt"
    for line in path.read_text().splitlines() if path.exists() else []:
        name, offset, length, octets = line.split()
        yield RdataType.from_text(name), bytes.fromhex("" if octets == "-" else octets), int(offset), int(length)


def golden_reads():
    """The reads of the golden tests: type, message, offset, RDLENGTH, and whether they are accepted."""
    for name in ("real.tsv", "rows.tsv"):
        path = PROGRAMS / "rdata_replay/data" / name
        for line in path.read_text(encoding="utf-8").splitlines() if path.exists() else []:
            words = line.split("\t")
            if len(words) == 7 and words[2] == "read" and words[0] in "01":
                octets = bytes.fromhex("" if words[6] == "-" else words[6])
                rdtype = int(words[3]) if words[3].isdigit() else RdataType.from_text(words[3])
                yield rdtype, octets, int(words[4]), int(words[5]), words[0] == "0"


@unittest.skipIf(dns is None, "dnspython is missing")
class BesideDnspython(unittest.TestCase):
    def test_random_octets(self):
        chosen, compared = random.Random(1), 0
        types = [RdataType.A, RdataType.NS, RdataType.CNAME, RdataType.SOA, RdataType.MX, RdataType.AAAA, RdataType.PTR, RdataType.SRV]
        for _ in range(5000):
            rdtype = chosen.choice(types)
            octets = bytes(chosen.randrange(5) for _ in range(chosen.randrange(40)))
            try:
                peer = read_by_peer(rdtype, octets, 0, len(octets)).to_digestable()
            except dns.exception.DNSException:
                self.assertRaises(WireError, Rdata, rdtype, octets)
                continue
            compared += 1
            self.assertEqual(Rdata(rdtype, octets).to_canonical(), peer)
        self.assertGreater(compared, 100)

    def test_samples(self):
        """The text of each reads the other's octets, where the peer knows the type."""
        for rdtype, octets, offset, length in samples():
            if rdtype in (RdataType.OPT, RdataType.NULL, RdataType.ANAME):
                continue
            rdata = Rdata.from_wire(rdtype, octets, offset, length)
            peer = dns.rdata.from_text(dns.rdataclass.IN, rdtype, rdata.to_text())
            self.assertEqual(peer.to_wire(), rdata.to_wire())
            self.assertEqual(Rdata.from_text(rdtype, peer.to_text()).to_wire(), rdata.to_wire())

    def test_golden_reads(self):
        """The uncompressed octets are the peer's, and the canonical ones unless this library's form is another one."""
        # The peer rejects more of these types than this library.
        stricter = (RdataType.OPT, RdataType.CSYNC, RdataType.SVCB, RdataType.HTTPS)
        compared, reads = 0, list(golden_reads())
        for rdtype, message, offset, length, accepted in reads:
            if not accepted:
                self.assertRaises(WireError, Rdata.from_wire, rdtype, message, offset, length)
                continue
            rdata = Rdata.from_wire(rdtype, message, offset, length)
            try:
                peer = read_by_peer(rdtype, message, offset, length)
            except dns.exception.DNSException:
                self.assertIn(rdtype, stricter)
                continue
            compared += 1
            if rdtype not in stricter:
                self.assertEqual(rdata.to_wire(), peer.to_wire())
                self.assertEqual(rdata.to_canonical(), peer.to_digestable())
        self.assertTrue(compared > 300 or not reads)


if __name__ == "__main__":
    unittest.main()
