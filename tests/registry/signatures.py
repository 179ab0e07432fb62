#!/usr/bin/env python3
"""A reference of what DNSSEC signs, held to the signatures in signed/, which other programs made.

    tests/registry/signatures.py --check        verifies every RRSIG of signed/*.tsv over the octets that are made here, and checks canonical.tsv
    tests/registry/signatures.py data FILE      prints for each RRSIG of a file its owner, its type covered, and the octets that it signs
    tests/registry/signatures.py canonical TYPE OCTETS      prints the canonical form of uncompressed RDATA

The octets are those of RFC 4034, sections 3.1.8.1 and 6, with RFC 6840, section 5.1 (names in NSEC keep their letters). The fields
are those of model.py. RSA (RFC 5702, 3), ECDSA with P-256 (RFC 6605, 4) and Ed25519 (RFC 8080, 4; RFC 8032, 5.1.7) are written out, slowly.
"""
import hashlib
import pathlib
import sys

import model
from plain_table import Name

HERE = pathlib.Path(__file__).resolve().parent

# The types whose names are lowercased (RFC 4034, section 6.2, without NSEC: RFC 6840, section 5.1). HINFO, which the list has, has no name.
LOWERED = set(
    "NS MD MF CNAME SOA MB MG MR PTR MINFO MX RP AFSDB RT SIG PX NXT NAPTR KX SRV DNAME A6 RRSIG".split()
)


def canonical(kind, rdata):
    """The canonical form of RDATA: names uncompressed, and lowercased in the types of the list."""
    if kind not in model.TYPES or model.TYPES[kind][0] not in LOWERED:
        return rdata
    fields, _ = model.read(kind, rdata, 0, len(rdata))
    return b"".join(value.canonical() if isinstance(value, Name) else model.wire(it, value) for _, it, value in fields)


def in_capitals(value):
    """A field's value, in which the letters of names are capitals."""
    if isinstance(value, Name):
        return Name([bytes(x - 32 if 97 <= x <= 122 else x for x in label) for label in value.labels])
    return [in_capitals(it) for it in value] if isinstance(value, list) else value


def name_of(text):
    """The canonical octets of an owner without escapes."""
    labels = [label.encode() for label in text.split(".") if label]
    assert "\\" not in text
    return Name(labels)


def records_of(file):
    """The records of a file: owner, type, TTL, RDATA."""
    numbers = model.type_numbers()
    found = []
    for line, octets in model.table(f"signed/{file}"):
        owner, ttl, _, kind, _ = line.split(" ", 4)
        found.append((name_of(owner.lower()), numbers.get(kind) or int(kind[4:]), int(ttl), model.octets_of(octets)))
    return found


def signed_data(signature, owner, rdatas):
    """The octets that a signature signs (RFC 4034, 3.1.8.1): its RDATA without the signature, and the set in canonical order."""
    fields = {label: value for label, _, value in signature}
    head = b"".join(
        value.canonical() if isinstance(value, Name) else model.wire(it, value) for label, it, value in signature if label != "signature"
    )
    labels = owner.labels
    if len(labels) > fields["labels"]:
        labels = [b"*"] + labels[len(labels) - fields["labels"] :]
    front = Name(labels).canonical() + fields["type_covered"].to_bytes(2, "big") + b"\0\1" + fields["original_ttl"].to_bytes(4, "big")
    forms = sorted({canonical(fields["type_covered"], rdata) for rdata in rdatas})
    return head + b"".join(front + len(form).to_bytes(2, "big") + form for form in forms)


def signatures_of(file):
    """Each RRSIG of a file: owner, its fields, the octets that it signs, and the keys of the file by algorithm and key tag."""
    records, sets, keys = records_of(file), {}, {}
    for owner, kind, _, rdata in records:
        sets.setdefault((owner.canonical(), kind), []).append(rdata)
        if kind == 48:
            keys[rdata[3], key_tag(rdata)] = rdata[4:]
    for owner, kind, _, rdata in records:
        if kind == 46:
            fields = model.read(46, rdata, 0, len(rdata))[0]
            covered = sets[owner.canonical(), fields[0][2]]
            yield owner, fields, signed_data(fields, owner, covered), keys


def key_tag(rdata):
    """The key tag of a DNSKEY (RFC 4034, appendix B)."""
    total = sum(octet << (0 if index & 1 else 8) for index, octet in enumerate(rdata))
    return (total + (total >> 16)) & 0xFFFF


# ---- RSA with SHA-256 (RFC 5702, 3.1; RFC 3110, 2; RFC 8017, 8.2.2)


def rsa_holds(key, data, signature):
    """Whether a signature of algorithm 8 holds."""
    size, at = (key[0], 1) if key[0] else (key[1] * 256 + key[2], 3)
    exponent, modulus = int.from_bytes(key[at : at + size], "big"), int.from_bytes(key[at + size :], "big")
    length = len(key) - at - size
    found = pow(int.from_bytes(signature, "big"), exponent, modulus).to_bytes(length, "big")
    digest = bytes.fromhex("3031300d060960864801650304020105000420") + hashlib.sha256(data).digest()
    return found == b"\0\1" + b"\xff" * (length - len(digest) - 3) + b"\0" + digest


# ---- ECDSA with P-256 and SHA-256 (RFC 6605, 4)

P256 = 2**256 - 2**224 + 2**192 + 2**96 - 1
ORDER = 0xFFFFFFFF00000000FFFFFFFFFFFFFFFFBCE6FAADA7179E84F3B9CAC2FC632551
BASE = (
    0x6B17D1F2E12C4247F8BCE6E563A440F277037D812DEB33A0F4A13945D898C296,
    0x4FE342E2FE1A7F9B8EE7EB4A7C0F9E162BCE33576B315ECECBB6406837BF51F5,
)


def p256_sum(one, other):
    """The sum of two points of P-256; None is the point at infinity."""
    if one is None or other is None:
        return one or other
    if one[0] == other[0] and (one[1] + other[1]) % P256 == 0:
        return None
    if one == other:
        slope = (3 * one[0] * one[0] - 3) * pow(2 * one[1], -1, P256)
    else:
        slope = (other[1] - one[1]) * pow(other[0] - one[0], -1, P256)
    x = (slope * slope - one[0] - other[0]) % P256
    return x, (slope * (one[0] - x) - one[1]) % P256


def times(add, count, point, zero):
    """A point taken so many times."""
    total = zero
    while count:
        if count & 1:
            total = add(total, point)
        point, count = add(point, point), count >> 1
    return total


def ecdsa_holds(key, data, signature):
    """Whether a signature of algorithm 13 holds."""
    r, s = int.from_bytes(signature[:32], "big"), int.from_bytes(signature[32:], "big")
    point = int.from_bytes(key[:32], "big"), int.from_bytes(key[32:], "big")
    if len(signature) != 64 or not (0 < r < ORDER and 0 < s < ORDER):
        return False
    inverse, digest = pow(s, -1, ORDER), int.from_bytes(hashlib.sha256(data).digest(), "big")
    found = p256_sum(
        times(p256_sum, digest * inverse % ORDER, BASE, None), times(p256_sum, r * inverse % ORDER, point, None)
    )
    return found is not None and found[0] % ORDER == r


# ---- Ed25519 (RFC 8032, 5.1)

P25519 = 2**255 - 19
D25519 = -121665 * pow(121666, -1, P25519) % P25519
ED_ORDER = 2**252 + 27742317777372353535851937790883648493


def ed_sum(one, other):
    """The sum of two points in extended coordinates (RFC 8032, 5.1.4)."""
    a, b = (one[1] - one[0]) * (other[1] - other[0]), (one[1] + one[0]) * (other[1] + other[0])
    c, d = 2 * one[3] * other[3] * D25519, 2 * one[2] * other[2]
    e, f, g, h = b - a, d - c, d + c, b + a
    return e * f % P25519, g * h % P25519, f * g % P25519, e * h % P25519


def ed_point(octets):
    """The point of 32 octets, or None (RFC 8032, 5.1.3)."""
    y = int.from_bytes(octets, "little")
    sign, y = y >> 255, y & (2**255 - 1)
    square = (y * y - 1) * pow(D25519 * y * y + 1, -1, P25519) % P25519
    x = pow(square, (P25519 + 3) // 8, P25519)
    if (x * x - square) % P25519:
        x = x * pow(2, (P25519 - 1) // 4, P25519) % P25519
    if y >= P25519 or (x * x - square) % P25519 or x == 0 and sign:
        return None
    x = P25519 - x if x & 1 != sign else x
    return x, y, 1, x * y % P25519


def ed_holds(key, data, signature):
    """Whether a signature of algorithm 15 holds."""
    public, r, s = ed_point(key), ed_point(signature[:32]), int.from_bytes(signature[32:], "little")
    if len(signature) != 64 or public is None or r is None or s >= ED_ORDER:
        return False
    digest = int.from_bytes(hashlib.sha512(signature[:32] + key + data).digest(), "little") % ED_ORDER
    base = ed_point((4 * pow(5, -1, P25519) % P25519).to_bytes(32, "little"))
    zero = (0, 1, 1, 0)
    one, other = times(ed_sum, s, base, zero), ed_sum(r, times(ed_sum, digest, public, zero))
    return (one[0] * other[2] - other[0] * one[2]) % P25519 == 0 and (one[1] * other[2] - other[1] * one[2]) % P25519 == 0


HOLDS = {8: rsa_holds, 13: ecdsa_holds, 15: ed_holds}


def check():
    """Verifies every signature; and one octet changed must not verify. Then canonical.tsv, which BIND or dnspython must say, too."""
    counts = model.Counts()
    for kind, name, octets, wanted, *answers in model.table("canonical.tsv"):
        counts.add(canonical(int(kind), model.octets_of(octets)).hex() == wanted, "canonical.tsv:", name, octets)
        counts.add("=" in answers, "canonical.tsv: no library says so:", name, octets)
    for file in sorted((HERE / "signed").glob("*.tsv")):
        for index, (owner, fields, data, keys) in enumerate(signatures_of(file.name)):
            values = {label: value for label, _, value in fields}
            key = keys[values["algorithm"], values["key_tag"]]
            holds = HOLDS[values["algorithm"]]
            counts.add(holds(key, data, values["signature"]), file.name, owner.text(), values["type_covered"])
            if index % 16 == 0:
                counts.add(not holds(key, data[:-1] + bytes([data[-1] ^ 1]), values["signature"]), file.name, owner.text(), "changed")
    print(f"{counts.passed} as wanted, {counts.failed} not")
    return counts.failed


def main():
    """See above."""
    if sys.argv[1:] == ["--check"]:
        sys.exit(check() > 0)
    if sys.argv[1] == "data":
        for owner, fields, data, _ in signatures_of(pathlib.Path(sys.argv[2]).name):
            print(owner.canonical().hex(), fields[0][2], data.hex(), sep="\t")
    else:
        print(canonical(int(sys.argv[2]), model.octets_of(sys.argv[3])).hex() or "-")


if __name__ == "__main__":
    main()
