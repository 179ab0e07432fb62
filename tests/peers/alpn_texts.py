#!/usr/bin/env python3
"""What other libraries read of the texts that this library prints for ALPN ids with a comma, a backslash or other odd octets.

    tests/peers/alpn_texts.py            writes alpn_texts.tsv

A line has the ids (hexadecimal digits, a comma between two), the text that `./zone` prints of an SVCB record with them, and for each
library the octets of RDATA that it reads of that text, `same` if they are those of the record, or `error`. BIND is asked by
named-compilezone, Knot by its zscanner (libknot-dev), ldns by ldns-read-zone, dnspython in Python (Debian: bind9-utils, libknot-dev,
ldnsutils, python3-dnspython).
"""
import pathlib
import re
import subprocess
import tempfile

import dns.rdata
import dns.version

HERE = pathlib.Path(__file__).resolve().parent
TOP = HERE.parent.parent
IDS = [[b","], [b"\\"], [b"\\,"], [b",\\"], [b"a,b"], [b"a\\b"], [b"\\\\"], [b'"'], [b'",'], [b",,"], [b"\\\\,"], [b"a b"], [b";"], [b"\x01"]]
IDS += [[b"a\\,b"], [b"h2", b"a,b"], [b"a,b", b"h2"], [b"a\\", b"b"]]
SCANNER = r"""
#include <libzscanner/scanner.h>
#include <stdio.h>
static void record(zs_scanner_t *s) {
    if (s->r_type == 64) {
        for (unsigned i = 0; i < s->r_data_length; i++)
            printf("%02x", s->r_data[i]);
        puts("");
    }
}
static void error(zs_scanner_t *s) { (void)s; puts("error"); }
int main(int count, char **words) {
    zs_scanner_t s;
    (void)count;
    zs_init(&s, "x.", 1, 60);
    zs_set_processing(&s, record, error, NULL);
    zs_set_input_file(&s, words[1]);
    zs_parse_all(&s);
    zs_deinit(&s);
    return 0;
}
"""


def output(words, given=None):
    return subprocess.run(words, input=given, capture_output=True, text=True).stdout


def octets_of(text):
    """The octets that this library reads of a text that BIND printed."""
    return output([TOP / "zone", "read"], f"SVCB {text}\n").strip()


def answers(folder, text):
    zone = folder / "zone.txt"
    zone.write_text(f"$ORIGIN x.\n$TTL 60\n@ IN SOA ns h 1 2 3 4 5\n@ IN NS ns\nns IN A 192.0.2.1\nc IN SVCB {text}\n")
    printed = re.findall(r"\sSVCB\s+(.*)", output(["named-compilezone", "-q", "-s", "full", "-F", "text", "-o", "-", "x", zone]))
    yield "bind", octets_of(printed[0]) if printed else "error"
    yield "knot", output([folder / "scanner", zone]).strip() or "error"
    found = re.findall(r"TYPE64\s+\\# \d+ ([0-9a-f]+)", output(["ldns-read-zone", "-u", "SVCB", zone]))
    yield "ldns", found[0] if found else "error"
    try:
        yield "dnspython", dns.rdata.from_text("IN", "SVCB", text).to_wire().hex()
    except dns.exception.DNSException:
        yield "dnspython", "error"


def main():
    lines = ["# Made by alpn_texts.py: BIND 9.18, Knot DNS 3.2.6, ldns 1.8.3, dnspython " + dns.version.version, "# ids\ttext\tbind\tknot\tldns\tdnspython"]
    with tempfile.TemporaryDirectory() as place:
        folder = pathlib.Path(place)
        (folder / "scanner.c").write_text(SCANNER)
        subprocess.run(["cc", "-o", folder / "scanner", folder / "scanner.c", "-lzscanner"], check=True)
        for ids in IDS:
            value = b"".join(bytes([len(it)]) + it for it in ids)
            data = b"\0\1\0\0\1" + len(value).to_bytes(2, "big") + value
            text = output([TOP / "zone"], f"SVCB 0 {len(data)} {data.hex()}\n").strip()
            came = ["same" if octets == data.hex() else octets for _, octets in answers(folder, text)]
            lines.append("\t".join([",".join(it.hex() for it in ids), text, *came]))
    (HERE / "alpn_texts.tsv").write_text("\n".join(lines) + "\n")


if __name__ == "__main__":
    main()
