"""Tests of Rdata, Name, RdataType and the errors, with values that were calculated by hand or are from RFCs."""

import doctest
import pathlib
import pickle
import re
import unittest

import dns_rdata
from dns_rdata import Name, Part, Rdata, RdataError, RdataType, Status, TextError, WireError, _name, _rdata, _rdtype

MESSAGE = b"\x03WWW\x07example\x03com\x00" b"\x00\x0a\xc0\x00"
MX = RdataType.MX


class Checked(unittest.TestCase):
    def setUp(self):
        self.mx = Rdata.from_wire(MX, MESSAGE, 17, 4)

    def test_wire(self):
        self.assertEqual((self.mx.rdtype, self.mx.offset, self.mx.octets), (MX, 17, b"\0\x0a\xc0\0"))
        self.assertEqual(self.mx.to_wire(), b"\0\x0a\3WWW\7example\3com\0")
        self.assertEqual(self.mx.to_canonical(), b"\0\x0a\3www\7example\3com\0")
        self.assertEqual((self.mx.to_text(), str(self.mx)), ("10 WWW.example.com.", "10 WWW.example.com."))
        self.assertEqual(repr(self.mx), "<Rdata MX 10 WWW.example.com.>")
        self.assertEqual(Rdata.from_wire(MX, bytearray(MESSAGE), 17), self.mx)
        self.assertEqual(Rdata.from_wire(15, MESSAGE, 17).rdtype, MX)

    def test_wire_is_rejected(self):
        with self.assertRaises(WireError) as caught:
            Rdata.from_wire(MX, b"\0\x0a\xc0\4\0", 0, 4)
        error = caught.exception
        self.assertEqual((error.status, error.cause, error.offset), (Status.LENGTH, Status.NAME, 2))
        self.assertEqual((error.read, error.expected, error.number), (2, 4, None))
        with self.assertRaises(WireError) as caught:
            Rdata(RdataType.ANY, b"")
        error = caught.exception
        self.assertEqual((error.status, error.cause, error.number), (Status.NEVER, Status.NEVER, 255))
        self.assertEqual((error.read, error.expected), (None, None))
        self.assertEqual(str(error), "NEVER: RDATA of this type is never read (255)")
        self.assertRaises(WireError, Rdata, RdataType.A, b"\0\0\0")
        self.assertRaises(WireError, Rdata.from_wire, RdataType.A, b"\0\0\0\0", 5)
        self.assertRaises(OverflowError, Rdata, RdataType.TXT, bytes(65536))
        self.assertRaises(OverflowError, Rdata.from_wire, RdataType.A, b"\0\0\0\0", -1)
        self.assertRaises(OverflowError, Rdata, 65536, b"")

    def test_octets(self):
        for octets in (3, None, "abc", [1, 2]):
            self.assertRaises(TypeError, Rdata, RdataType.A, octets)
            self.assertRaises(TypeError, Rdata.from_wire, RdataType.A, octets)
            self.assertRaises(TypeError, Name, octets)
            self.assertRaises(TypeError, next, dns_rdata.records(octets))
        self.assertEqual(Rdata(RdataType.A, memoryview(b"\1\2\3\4")), Rdata(RdataType.A, bytearray(b"\1\2\3\4")))

    def test_text_with_surrogates(self):
        for call in (Name.from_text, RdataType.from_text, lambda text: Rdata.from_text(RdataType.TXT, text)):
            with self.assertRaises(TextError) as caught:
                call("\ud800")
            self.assertEqual(caught.exception.status, Status.NOT_UTF8)

    def test_statuses_of_later_versions(self):
        status = Status(29)
        self.assertEqual((status.name, int(status), pickle.loads(pickle.dumps(status))), ("STATUS29", 29, 29))
        self.assertRaises(ValueError, Status, -1)

    def test_names_of_types(self):
        self.assertEqual([str(RdataType.from_text(text)) for text in ("mx", "Loc", "TYPE29", "ANAME")], ["MX", "TYPE29", "TYPE29", "ANAME"])
        self.assertEqual((f"{MX}", f"{MX:d}", f"{MX:>4}", "%d" % MX), ("MX", "15", "  15", "15"))

    def test_names_in_messages(self):
        self.assertEqual(Name.from_wire(MESSAGE), (Name.from_text("www.example.com"), 17))
        self.assertEqual(Name.from_wire(bytearray(MESSAGE), 19), (Name.from_text("www.example.com"), 2))
        self.assertRaises(WireError, Name.from_wire, MESSAGE, 18)
        self.assertRaises(WireError, Name.from_wire, MESSAGE, 22)

    def test_text(self):
        origin = Name.from_text("example.")
        self.assertEqual(Rdata.from_text(MX, "10 mail", origin).octets, b"\0\x0a\4mail\7example\0")
        self.assertEqual(Rdata.from_text(MX, "10 mail").octets, b"\0\x0a\4mail\0")
        self.assertEqual(Rdata.from_text(RdataType.TXT, b"\xff").octets, b"\1\xff")
        self.assertEqual(Rdata.from_text(4711, r"\# 2 abcd").octets, b"\xab\xcd")
        for rdtype, text, status in [
            (MX, "10", Status.MISSING_WORD),
            (MX, "ten mail", Status.WRONG_WORD),
            (RdataType.OPT, "x", Status.UNSUPPORTED_TYPE),
            (RdataType.A, r"\# 3 0a0000", Status.WRONG_VALUE),
        ]:
            with self.assertRaises(TextError) as caught:
                Rdata.from_text(rdtype, text, origin)
            self.assertEqual(caught.exception.status, status)

    def test_names(self):
        soa = Rdata(RdataType.SOA, b"\1x\0\1Y\xc0\0" + bytes(20))
        self.assertEqual([(it.offset, str(it.name)) for it in soa.names()], [(0, "x."), (3, "Y.x.")])
        self.assertEqual([(it.offset, it.name.octets) for it in self.mx.names()], [(19, MESSAGE[:17])])
        self.assertEqual(Rdata(RdataType.A, b"\1\2\3\4").names(), [])

    def test_parts(self):
        options = b"\0\x0a\0\2\1\2\0\x0c\0\0"
        self.assertEqual(Rdata(RdataType.OPT, options).parts(), [Part(10, 4, b"\1\2"), Part(12, 10, b"")])
        self.assertEqual((Rdata(RdataType.OPT, options[:8]).parts(), self.mx.parts()), ([], []))

    def test_strings(self):
        def strings(rdtype, octets):
            return Rdata(rdtype, octets).strings()

        self.assertEqual(strings(RdataType.TXT, b"\1a\0\2bc"), [b"a", b"", b"bc"])
        self.assertEqual(strings(RdataType.HINFO, b"\1a\0"), [b"a", b""])
        self.assertEqual(strings(RdataType.NAPTR, b"\0\1\0\2\1u\3E2U\1!\0"), [b"u", b"E2U", b"!"])
        self.assertEqual(self.mx.strings(), [])

    def test_comparison(self):
        a, b, c = (Rdata(MX, octets) for octets in [b"\0\x0a\1A\0", b"\0\x0a\1a\0", b"\0\x0a\1b\0"])
        self.assertTrue(a == b and a != c and a < c and c > b and a <= b and a >= b)
        self.assertEqual((hash(a) == hash(b), len({a, b, c})), (True, 2))
        self.assertEqual(sorted([c, b, a]), [a, b, c])
        other = Rdata(4711, b"\0\x0a\1a\0")
        self.assertTrue(a != other and a < other and not other < a)
        self.assertFalse(a == b"\0\x0a\1A\0")
        with self.assertRaises(TypeError):
            a < b""

    def test_more_than_65535_octets(self):
        # SVCB with 65526 octets of a parameter, whose name is a compression pointer to one of 42 octets.
        def message(letter):
            parameter = b"\xff\0\xff\xf0" + bytes(65520)
            return b"\x28" + letter * 40 + b"\0" + b"\0\1\xc0\0" + parameter

        a, b = (Rdata.from_wire(RdataType.SVCB, message(letter), 42) for letter in [b"a", b"A"])
        self.assertEqual((a == b, a < b, hash(a) == hash(b)), (True, False, True))
        for call in [a.to_text, a.to_wire, a.to_canonical]:
            with self.assertRaises(RdataError) as caught:
                call()
            self.assertEqual(caught.exception.status, Status.TOO_LONG)
        self.assertEqual(repr(a), "<Rdata SVCB, TOO_LONG: more than 65535 octets>")

    def test_pickles(self):
        self.assertEqual(pickle.loads(pickle.dumps(self.mx)), self.mx)
        self.assertEqual(pickle.loads(pickle.dumps(Name(b"\1a\0"))), Name(b"\1a\0"))
        self.assertEqual(pickle.loads(pickle.dumps(RdataType(4711))), 4711)
        with self.assertRaises(WireError) as caught:
            Rdata(MX, b"\0\x0a\xc0\4")
        again = pickle.loads(pickle.dumps(caught.exception))
        self.assertEqual((type(again), str(again), again.offset), (WireError, str(caught.exception), 2))


class Names(unittest.TestCase):
    def test_octets(self):
        self.assertEqual(str(Name(b"\1a\0")), "a.")
        self.assertEqual((str(Name(b"\0")), Name(b"\0").labels()), (".", []))
        longest = (b"\x3f" + b"a" * 63) * 3 + b"\x3d" + b"a" * 61 + b"\0"
        self.assertEqual((len(longest), Name(longest).octets), (255, longest))
        wrong = [b"", b"\1a", b"\0\0", b"\1a\0\0", b"\1a\xc0\0", b"\xc0\0", b"\x40\0", bytes(70000), b"\1a" * 127 + b"\1\0"]
        for octets in wrong:
            with self.assertRaises(WireError) as caught:
                Name(octets)
            self.assertEqual(caught.exception.status, Status.NAME)

    def test_texts(self):
        origin = Name.from_text("example.")
        for text, octets in [("a", b"\1a\7example\0"), ("a.", b"\1a\0"), ("@", b"\7example\0"), (".", b"\0")]:
            self.assertEqual(Name.from_text(text, origin).octets, octets)
        self.assertEqual(Name.from_text(r"a\.\032\;b").octets, b"\5a. ;b\0")
        self.assertEqual(Name.from_text(r"\#").octets, b"\1#\0")
        wrong = ["", " ", "a b", "a ", '"a"', "(a)", "a;", "a..b", "a\\", "a\n", r"\# 3 016100", r"a\\;"]
        for text in wrong:
            self.assertRaises(TextError, Name.from_text, text, origin)
        for octet in range(256):
            name = Name(bytes([2, octet, 120, 0]))
            self.assertEqual(Name.from_text(str(name)).octets, name.octets)

    def test_order(self):
        """The example of RFC 4034, section 6.1."""
        texts = ["example.", "a.example.", "yljkjljk.a.example.", "Z.a.example.", "zABC.a.EXAMPLE.", "z.example."]
        texts += [r"\001.z.example.", "*.z.example.", r"\200.z.example."]
        names = [Name.from_text(text) for text in texts]
        self.assertEqual(sorted(reversed(names)), names)
        self.assertEqual((Name.from_text("A.b."), hash(Name.from_text("A.b."))), (Name.from_text("a.B."), hash(Name.from_text("a.B."))))
        self.assertFalse(Name(b"\0") == b"\0")


class Types(unittest.TestCase):
    def test_types(self):
        self.assertEqual((RdataType.from_text("MX"), RdataType.from_text("TYPE15"), MX.to_text()), (MX, MX, "MX"))
        self.assertEqual((RdataType(4711).to_text(), RdataType.from_text("TYPE4711")), ("TYPE4711", 4711))
        self.assertEqual(repr(RdataType(4711)), "<RdataType.TYPE4711: 4711>")
        for number in [-1, 65536, "MX"]:
            self.assertRaises(ValueError, RdataType, number)
        with self.assertRaises(TextError) as caught:
            RdataType.from_text("mxx")
        self.assertEqual(caught.exception.status, Status.NO_TYPE)


class Readme(unittest.TestCase):
    def test_readme(self):
        """The examples of README.md, one after the other."""
        readme = pathlib.Path(__file__).resolve().parents[1] / "README.md"
        blocks = re.findall(r"```python\n(.*?)```", readme.read_text(encoding="utf-8"), re.S)
        test = doctest.DocTestParser().get_doctest("\n".join(blocks), {}, readme.name, str(readme), 0)
        self.assertEqual(doctest.DocTestRunner().run(test).failed, 0)
        self.assertGreater(len(test.examples), 5)


def load_tests(loader, tests, pattern):
    for module in (dns_rdata, _name, _rdata, _rdtype):
        tests.addTests(doctest.DocTestSuite(module))
    return tests


if __name__ == "__main__":
    unittest.main()
