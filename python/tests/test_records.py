"""Tests of the walk over the records of a message, with messages that were made by hand."""

import doctest
import pathlib
import pickle
import unittest

from dns_rdata import MessageError, Name, RdataType, Section, Status, _records, records

# A header that counts one answer.
ONE = b"\0\0\x80\0\0\0\0\1\0\0\0\0"
A = b"\0" b"\0\1\0\1\0\0\0\x3c\0\4\xc0\0\2\1"


def message(answers, *octets, opcode=0):
    """A message without questions, with so many answers."""
    return bytes([0, 0, 0x80 | opcode << 3, 0, 0, 0, 0, answers, 0, 0, 0, 0]) + b"".join(octets)


class Walks(unittest.TestCase):
    def raises(self, status, octets, offset=None, limit=262144):
        """How many records precede the error."""
        found = []
        with self.assertRaises(MessageError) as caught:
            for record in records(octets, limit):
                found.append(record)
        self.assertEqual((caught.exception.status, caught.exception.offset), (status, offset))
        return len(found)

    def test_fields(self):
        [record] = records(bytearray(message(1, b"\3WWW" + A)))
        self.assertEqual((record.owner, record.owner.octets), (Name.from_text("www."), b"\3WWW\0"))
        self.assertEqual((record.section, record.index, record.offset), (Section.ANSWER, 0, 12))
        self.assertEqual((record.rdtype, record.rdclass, record.ttl), (RdataType.A, 1, 60))
        self.assertEqual((str(record.rdata), record.rdata_offset, record.rdata_octets), ("192.0.2.1", 27, b"\xc0\0\2\1"))
        self.assertIsNone(record.error)
        self.assertEqual(repr(record), "<Record WWW. 60 IN A 192.0.2.1>")
        again = pickle.loads(pickle.dumps(record))
        self.assertEqual((again.owner, again.ttl, again.rdata), (record.owner, 60, record.rdata))

    def test_sections(self):
        octets = bytearray(message(2, A, A, A, A))
        octets[9], octets[11] = 1, 1
        found = [(it.section.name, it.index) for it in records(octets)]
        self.assertEqual(found, [("ANSWER", 0), ("ANSWER", 1), ("AUTHORITY", 0), ("ADDITIONAL", 0)])
        self.assertEqual(list(records(bytes(12))), [])

    def test_rejected_rdata(self):
        """A of three octets, and the walk goes on."""
        first, second = records(message(2, b"\0\0\1\0\1\0\0\0\x3c\0\3\xc0\0\2", A))
        self.assertEqual((first.error.status, first.error.read, first.error.expected), (Status.LENGTH, 4, 3))
        self.assertEqual((first.rdata, first.rdata_octets, first.ttl), (None, b"\xc0\0\2", 60))
        self.assertIn("rejected: LENGTH", repr(first))
        self.assertEqual(str(second.rdata), "192.0.2.1")

    def test_damaged(self):
        self.assertEqual(self.raises(Status.HEADER, b""), 0)
        self.assertEqual(self.raises(Status.HEADER, bytes(11)), 0)
        self.assertEqual(self.raises(Status.QUESTION, b"\0\0\0\0\0\1\0\0\0\0\0\0\0\0\0\0"), 0)
        # An owner that is a compression pointer to itself, RDATA without its last octet, and a record too few.
        self.assertEqual(self.raises(Status.RECORD, message(3, A, b"\xc0\x1b" + A[1:], A), 27), 1)
        self.assertEqual(self.raises(Status.RECORD, message(1, A[:-1]), 12), 0)
        self.assertEqual(self.raises(Status.RECORD, message(2, A), 27), 1)

    def test_errors_are_printed(self):
        walk = records(message(1))
        with self.assertRaises(MessageError) as caught:
            next(walk)
        self.assertEqual(str(caught.exception), "RECORD: a damaged record at offset 12")
        again = pickle.loads(pickle.dumps(caught.exception))
        self.assertEqual((type(again), str(again), again.offset), (MessageError, str(caught.exception), 12))
        self.assertEqual(str(MessageError(Status.HEADER)), "HEADER: the message is shorter than a header")
        self.assertEqual(list(walk), [])

    def test_limit(self):
        """MX whose owner and exchange are compression pointers to a label."""
        mx = b"\xc0\x0c\0\x0f\0\1\0\0\0\x3c\0\4\0\x0a\xc0\x0c"
        octets = message(3, b"\1a" + A, mx, mx)
        # 1 label, and twice a pointer and a label in each of two names
        self.assertEqual(len(list(records(octets, 9))), 3)
        self.assertEqual(len(list(records(octets, (1 << 64) - 1))), 3)
        self.assertEqual(self.raises(Status.LIMIT, octets, 45, 8), 2)
        self.assertEqual(self.raises(Status.LIMIT, octets, 29, 4), 1)
        self.assertEqual(self.raises(Status.LIMIT, octets, 12, 0), 0)
        self.assertRaises(OverflowError, list, records(octets, -1))
        self.assertRaises(OverflowError, list, records(octets, 1 << 64))

    def test_updates(self):
        """RFC 2136, sections 2.4 and 2.5: class ANY or NONE without data."""
        wrong, right = b"\0\0\1\0\1\0\0\0\0\0\0", b"\0\0\1\0\xff\0\0\0\0\0\0"
        first, second = records(message(2, wrong, right, opcode=5))
        self.assertEqual((first.error.status, second.error, second.rdata, second.rdclass), (Status.LENGTH, None, None, 255))
        self.assertEqual(repr(second), "<Record . 0 CLASS255 A without data>")

    def test_example(self):
        """The message of the C example, if the repository is there."""
        path = pathlib.Path(__file__).resolve().parents[2] / "c/examples/response.bin"
        if not path.exists():
            self.skipTest("the repository is not there")
        found = list(records(path.read_bytes()))
        lines = path.with_suffix(".out").read_text().splitlines()
        self.assertEqual(len(found), len(lines))
        for record, line in zip(found, lines):
            start = f"{record.owner} {record.ttl} {'IN' if record.rdclass == 1 else f'CLASS{record.rdclass}'} {record.rdtype.name} "
            self.assertTrue(line.startswith(start), line)
            self.assertEqual(record.error is not None, "; rejected" in line)
            if record.rdata:
                self.assertEqual(line, start + record.rdata.to_text())


def load_tests(loader, tests, pattern):
    tests.addTests(doctest.DocTestSuite(_records))
    return tests


if __name__ == "__main__":
    unittest.main()
