"""Tests of dns_rdata._calls: each call over octets and numbers."""

import doctest
import pathlib
import pickle
import time
import unittest

import dns_rdata
from dns_rdata import RdataType, Status, _calls

MESSAGE = b"\x03WWW\x07example\x03com\x00" b"\x00\x0a\xc0\x00"
A, SOA, MX, TXT, OPT = 1, 6, 15, 16, 41


def samples():
    """The samples of the benchmark, if the repository is there: the number of a type, and octets."""
    path = pathlib.Path(__file__).resolve().parents[2] / "tests/programs/rdata_bench/data/samples.txt"
    for line in path.read_text().split("\n") if path.exists() else []:
        words = line.split()
        if len(words) == 4:
            yield _calls.type_number(words[0]), bytes.fromhex("" if words[3] == "-" else words[3])


class Calls(unittest.TestCase):
    def rejected(self, status, call, *given):
        with self.assertRaises(dns_rdata.RdataError) as caught:
            call(*given)
        self.assertEqual(caught.exception.status, status)
        return caught.exception

    def test_check(self):
        _calls.check(b"\x0a\0\0\1", 0, 4, A)
        error = self.rejected(Status.LENGTH, _calls.check, b"\x0a\0\0\1", 0, 3, A)
        self.assertEqual((error.read, error.expected), (4, 3))
        self.assertEqual(self.rejected(Status.NEVER, _calls.check, b"", 0, 0, 255).number, 255)
        self.rejected(Status.MISSING_OCTETS, _calls.check, b"\x0a\0\0\1", 5, 4, A)

    def test_causes(self):
        for octets, size, number, cause, offset in [
            ("c00002", 4, A, Status.MISSING_OCTETS, 3),  # the message ends inside the RDATA
            ("000ac00400", 4, MX, Status.NAME, 2),  # a compression pointer forward
            ("0005697373752d6361", 9, 257, Status.CAA_TAG, 7),  # "-" in a CAA tag, and a value
            ("000000010004000140", 9, 62, Status.CSYNC_FLAGS, 6),  # unknown CSYNC flags, and a bitmap
            ("c000020100", 5, A, Status.OK, 4),  # RDATA longer than the record
        ]:
            error = self.rejected(Status.LENGTH, _calls.check, bytes.fromhex(octets), 0, size, number)
            self.assertEqual((error.cause, error.offset, error.read, error.expected), (cause, offset, offset, size))
            self.assertEqual(error.number, 4 if cause == Status.CSYNC_FLAGS else None)

    def test_octets(self):
        self.assertEqual(_calls.wire(MESSAGE, 17, 4, MX), b"\x00\x0a\x03WWW\x07example\x03com\x00")
        self.assertEqual(_calls.canonical(MESSAGE, 17, 4, MX), b"\x00\x0a\x03www\x07example\x03com\x00")
        self.assertEqual(_calls.wire(bytearray(MESSAGE), 17, 4, MX), _calls.wire(memoryview(MESSAGE), 17, 4, MX))
        long = b"\xffx" + b"x" * 254
        self.assertEqual(_calls.wire(long * 200, 0, 256 * 200, TXT), long * 200)

    def test_orders(self):
        first, second, other = (_calls.data(*it) for it in [(MESSAGE, 17, 4, MX), (b"\x00\x0b\x00", 0, 3, MX), (b"\0", 0, 1, TXT)])
        orders = [_calls.compare(*both) for both in [(first, second), (second, first), (first, first)]]
        self.assertEqual(orders, [-1, 1, 0])
        self.assertEqual([_calls.equal(first, second), _calls.equal(first, first)], [False, True])
        for call in [_calls.compare, _calls.equal]:
            self.rejected(Status.OTHER_TYPE, call, first, other)
        orders = [_calls.compare_canonical(*both) for both in [(b"a", b"a\0"), (b"b", b"a\0"), (b"", b"")]]
        self.assertEqual(orders, [-1, 1, 0])

    def test_texts(self):
        self.assertEqual(_calls.text(MESSAGE, 17, 4, MX), "10 WWW.example.com.")
        self.assertEqual(_calls.text(b'\3a "\0', 0, 5, TXT), r'"a \"" ""')
        self.assertEqual(_calls.text(b"\xab\xcd", 0, 2, 4711), r"\# 2 abcd")

    def test_texts_are_read(self):
        origin = b"\x07example\0"
        self.assertEqual(_calls.parse("10 mail", MX, origin), b"\0\x0a\4mail\7example\0")
        self.assertEqual(_calls.parse(b'"a \\"" \xff', TXT), b'\3a "\1\xff')
        self.assertEqual(_calls.parse(r"\# 2 abcd", 4711), b"\xab\xcd")
        self.rejected(Status.MISSING_WORD, _calls.parse, "10", MX)
        self.rejected(Status.WRONG_WORD, _calls.parse, "1.2.3", A)
        self.rejected(Status.UNSUPPORTED_TYPE, _calls.parse, "x", OPT)
        self.rejected(Status.WRONG_VALUE, _calls.parse, r"\# 5 0a00000000", A)
        self.rejected(Status.ORIGIN, _calls.parse, "10 mail", MX, b"\x07")

    def test_reasons(self):
        error = self.rejected(Status.WRONG_WORD, _calls.parse, "10  a..b", MX)
        self.assertEqual((error.reason, error.field, error.token), ("empty label in a domain name in MX exchange token", "MX exchange", (4, 8)))
        self.assertEqual(str(error), "WRONG_WORD: a wrong token: empty label in a domain name in MX exchange token at octet 4")
        error = self.rejected(Status.MISSING_WORD, _calls.parse, "10", MX)
        self.assertEqual((error.reason, error.field, error.token), ("MX exchange", "MX exchange", None))
        error = self.rejected(Status.WRONG_WORD, _calls.parse, '"a', TXT)
        self.assertEqual((error.reason, error.field, error.token), ("quotes without an end", None, None))
        error = self.rejected(Status.WRONG_VALUE, _calls.parse, r"\# 5 0a00000000", A)
        self.assertEqual((error.reason, error.cause, str(error)), (None, Status.LENGTH, "WRONG_VALUE: a wrong name or value: wrong length of RDATA"))
        error = self.rejected(Status.UNSUPPORTED_TYPE, _calls.parse, "x", OPT)
        self.assertEqual((error.reason, error.field, error.token, error.cause), (None, None, None, None))
        self.assertEqual(pickle.loads(pickle.dumps(error)).args, error.args)

    def test_samples_are_read_again(self):
        for number, octets in samples():
            data = (octets, 0, len(octets), number)
            self.assertEqual(_calls.parse(_calls.text(*data), number, b"\1o\0"), _calls.wire(*data))

    def test_names_and_parts(self):
        self.assertEqual(_calls.names(MESSAGE, 17, 4, MX), [(19, MESSAGE[:17])])
        soa = b"\1x\0\1Y\xc0\0" + bytes(20)
        self.assertEqual(_calls.names(soa, 0, len(soa), SOA), [(0, b"\1x\0"), (3, b"\1Y\1x\0")])
        self.assertEqual(_calls.names(b"\x0a\0\0\1", 0, 4, A), [])
        options = b"\0\x0a\0\2\1\2\0\x0c\0\0"
        self.assertEqual(_calls.parts(options, 0, 10, OPT), [(10, 4, 2), (12, 10, 0)])
        self.assertEqual(_calls.parts(options, 0, 8, OPT), [])
        self.rejected(Status.LENGTH, _calls.parts, options, 0, 9, OPT)
        self.rejected(Status.LENGTH, _calls.names, MESSAGE, 17, 3, MX)
        self.assertEqual(_calls.parts(MESSAGE, 17, 4, MX), [])

    def test_many_parts_in_linear_time(self):
        def least_time(count):
            many, times = b"\0\x0c\0\0" * count, []
            for _ in range(3):
                start = time.process_time()
                self.assertEqual(_calls.parts(many, 0, len(many), OPT), [(12, 4 * i + 4, 0) for i in range(count)])
                times.append(time.process_time() - start)
            return min(times)

        # Eight times as many take eight times as long, and not 64 times.
        self.assertLess(least_time(16000), 32 * least_time(2000))

    def test_numbers(self):
        class Two:
            def __index__(self):
                return 2

        self.assertEqual(_calls.data(b"\0\0", Two(), 0, A).offset, 2)
        for given in [(1.0, 0, A), (0, 1.0, A), (0, 0, 1.0), ("0", 0, A), (None, 0, A)]:
            with self.assertRaises(TypeError):
                _calls.data(b"\0\0", *given)
        for call in [lambda: _calls.name_text(b"\0", 0.0), lambda: _calls.records_begin(bytes(12), 1.5), lambda: _calls.type_text(1.0)]:
            with self.assertRaises(TypeError):
                call()

    def test_names(self):
        message = b"\1x\0\1Y\xc0\0"
        self.assertEqual([_calls.name_length(message, 0), _calls.name_length(message, 3)], [3, 4])
        self.assertEqual([_calls.name_text(message, 2), _calls.name_text(message, 3)], [".", "Y.x."])
        self.rejected(Status.NAME, _calls.name_length, message, 7)
        self.rejected(Status.MISSING_OCTETS, _calls.name_text, message, 8)
        self.assertEqual(_calls.name_from_text("Y", b"\1x\0"), b"\1Y\1x\0")
        self.assertEqual(_calls.name_from_text(b" \xff ; a comment"), b"\1\xff\0")
        self.rejected(Status.ORIGIN, _calls.name_from_text, "Y", b"\1x")
        self.rejected(Status.WRONG_WORD, _calls.name_from_text, "a b")
        self.rejected(Status.MISSING_WORD, _calls.name_from_text, "")

    def test_types(self):
        self.assertEqual([_calls.type_text(15), _calls.type_text(4711)], ["MX", "TYPE4711"])
        self.assertEqual([_calls.type_number("MX"), _calls.type_number("TYPE4711")], [15, 4711])
        self.rejected(Status.NO_TYPE, _calls.type_number, "mxx")
        named = {_calls.type_text(number): number for number in range(65536)}
        named = {name: number for name, number in named.items() if name != f"TYPE{number}"}
        self.assertEqual({it.name: it.value for it in RdataType}, named)

    def test_numbers_are_not_truncated(self):
        for offset, length, number in [(-1, 4, 1), (1 << 64, 4, 1), (0, 65536, 1), (0, -1, 1), (0, 4, 65537), (0, 4, -1)]:
            self.assertRaises(OverflowError, _calls.check, b"\x0a\0\0\1", offset, length, number)


def load_tests(loader, tests, pattern):
    tests.addTests(doctest.DocTestSuite(_calls))
    return tests


if __name__ == "__main__":
    unittest.main()
