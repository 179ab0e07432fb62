#!/usr/bin/env python3
"""Compares the reference model with BIND on RDATA that was changed at random: which types do they treat differently, and how?

    tests/registry/mutated.py WORK_DIR [SEED [COUNT]]

A line for each type, way and reason: how many, and an example. A difference that differences.tsv does not explain is an error of one of the
two. Where both accept, the octets must be the same; the last line counts those that are not. The gate does not run this.
"""
import collections
import pathlib
import random
import sys

import model
import peers

ODD = (0, 1, 2, 3, 4, 12, 20, 32, 33, 63, 64, 128, 192, 255)


def seeds():
    """Good RDATA: the type, the octets of the message in front, the RDATA."""
    found = []
    for kind, _, message, offset, length, wanted, *_ in model.table("octets.tsv"):
        if wanted == "ok" and int(length) < 200:
            message, offset = bytes.fromhex(message), int(offset)
            found.append((int(kind), message[:offset], message[offset : offset + int(length)]))
    front = {kind: head for kind, head, _ in found}
    for kind, _, _, _, wanted, *_ in model.table("texts.tsv"):
        if wanted not in ("refused", "-") and int(kind) in front and len(wanted) < 400:
            found.append((int(kind), front[int(kind)], bytes.fromhex(wanted)))
    return found


def changed(rdata):
    """RDATA with one to three changes."""
    rdata = bytearray(rdata)
    for _ in range(random.choice((1, 1, 1, 2, 3))):
        way, at = random.random(), random.randrange(len(rdata) + 1)
        octet = random.choice(ODD + (random.randrange(256),) * 4)
        if way < 0.55 and at < len(rdata):
            rdata[at] = octet
        elif way < 0.75 and at < len(rdata):
            del rdata[at]
        elif way < 0.95:
            rdata.insert(at, octet)
        else:
            del rdata[at:]
    return bytes(rdata)


def main():
    """See above."""
    work = pathlib.Path(sys.argv[1]).resolve()
    random.seed(int(sys.argv[2]) if len(sys.argv) > 2 else 1)
    cases, good = [], seeds()
    for _ in range(int(sys.argv[3]) if len(sys.argv) > 3 else 40000):
        kind, front, rdata = random.choice(good)
        rdata = changed(rdata)
        cases.append((kind, front[:-2] + len(rdata).to_bytes(2, "big") + rdata, len(front), len(rdata)))
    answers = peers.asked(work, "BIND", "wire", [f"{kind} {at} {size} {message.hex()}" for kind, message, at, size in cases])
    counts, examples, others = collections.Counter(), {}, 0
    for (kind, message, at, size), (state, more) in zip(cases, answers):
        found = model.read(kind, message, at, size)
        if state == "unknown":
            continue
        if (found is None) != (state == "rejected"):
            way = (kind, model.TYPES[kind][0], f"BIND: {more}" if found else "BIND accepts")
            counts[way] += 1
            examples.setdefault(way, message[at : at + size].hex())
        elif found and (found[1].hex() or "-") != state:
            others += 1
            print("other octets:", kind, message[at : at + size].hex())
    for way, count in sorted(counts.items()):
        print(count, *way, examples[way][:80] or "-")
    print(f"{len(cases)} compared, {sum(counts.values())} treated differently, {others} with other octets")


if __name__ == "__main__":
    main()
