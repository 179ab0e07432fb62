#!/usr/bin/env python3
"""Prints the records of DNS messages, a line each, as in a zone file: what c/examples/dnsdump.c prints.

    python3 dnsdump.py FILE      the messages of a capture file (pcap): UDP from or to port 53
    python3 dnsdump.py FOLDER    the messages of the files in a folder, one a file

Standard error has the counts. Status 0; 1 if RDATA was rejected or a message is damaged; 2 if a file cannot be used.
"""

from __future__ import annotations

import collections
import pathlib
import struct
import sys
from typing import Iterator, Optional

from dns_rdata import MessageError, RdataError, RdataType, Record, records

counts: collections.Counter[str] = collections.Counter()
statuses: collections.Counter[int] = collections.Counter()
types: collections.Counter[RdataType] = collections.Counter()


def print_record(record: Record) -> None:
    rdclass = "IN" if record.rdclass == 1 else f"CLASS{record.rdclass}"
    head = f"{record.owner} {record.ttl} {rdclass} {record.rdtype.to_text()}"
    counts["records"] += 1
    try:
        if record.error:
            raise record.error
        print(f"{head} {record.rdata.to_text()}" if record.rdata else f"; no data: {head}")
    except RdataError as error:
        where = "" if error.cause is None else f", cause {error.cause:d}, offset {error.offset}"
        print(f"; rejected: {head}: status {error.status:d}{where}")
        counts["rejected"] += 1
        statuses[error.status] += 1
        types[record.rdtype] += 1


def print_message(message: bytes) -> None:
    counts["messages"] += 1
    print(f"; message {counts['messages']}, {len(message)} octets")
    try:
        for record in records(message):
            print_record(record)
    except MessageError as error:
        print(f"; damaged: status {error.status:d}")
        counts["damaged"] += 1
        statuses[error.status] += 1


def print_counts() -> None:
    messages = f"{counts['messages']} messages, {counts['damaged']} of them damaged"
    lines = [f"{messages}; {counts['others']} packets without a message"]
    lines.append(f"{counts['records']} records, {counts['rejected']} of them rejected")
    lines += [f"status {status:d}: {count}" for status, count in sorted(statuses.items())]
    lines += [f"rejected {rdtype.to_text()}: {count}" for rdtype, count in sorted(types.items())]
    print("\n".join(lines), file=sys.stderr)


def message_of(link: int, frame: bytes) -> Optional[bytes]:
    """The message in a packet: None if it is not one of UDP from or to port 53."""
    begin = 18 if link == 1 and frame[12:14] == b"\x81\0" else {1: 14, 101: 0, 113: 16}[link]
    ip = frame[begin:]
    if len(ip) < 20 or (link != 101 and frame[begin - 2 : begin] not in (b"\x08\0", b"\x86\xdd")):
        return None
    header = ip[0] % 16 * 4
    is_first = ip[6] % 32 == 0 and ip[7] == 0  # of the fragments of a packet
    if ip[0] >> 4 == 4 and header >= 20 and ip[9] == 17 and is_first:
        udp = ip[header:]
    else:
        udp = ip[40:] if ip[0] >> 4 == 6 and ip[6] == 17 else b""
    source, target, length = struct.unpack(">3H2x", udp[:8].ljust(8, b"\0"))
    return udp[8:length] if len(udp) >= 8 and length >= 8 and 53 in (source, target) else None


def captured(octets: bytes) -> Iterator[bytes]:
    """The messages of a capture file."""
    order = {"a1b2c3d4": ">", "a1b23c4d": ">", "d4c3b2a1": "<", "4d3cb2a1": "<"}.get(octets[:4].hex())
    if order is None or len(octets) < 24:
        raise ValueError("is not a capture file (pcap)")
    link = struct.unpack(f"{order}I", octets[20:24])[0] & 0xFFFF
    if link not in (1, 101, 113):
        raise ValueError("has a link layer other than Ethernet, raw IP and Linux cooked capture")
    end = 24
    while end < len(octets):
        begin = end + 16
        end = begin + struct.unpack(f"{order}I", octets[begin - 8 : begin - 4].ljust(4, b"\xff"))[0]
        if end > len(octets):
            raise ValueError("ends inside a packet")
        message = message_of(link, octets[begin:end])
        if message is None:
            counts["others"] += 1
        else:
            yield message


def in_files(folder: pathlib.Path) -> Iterator[bytes]:
    """The messages in the files of a folder."""
    return (it.read_bytes() for it in sorted(folder.iterdir()) if it.is_file() and it.name[0] != ".")


def main(name: str) -> int:
    path, status = pathlib.Path(name), 0
    try:
        for message in in_files(path) if path.is_dir() else captured(path.read_bytes()):
            print_message(message)
    except (OSError, ValueError) as error:
        print(f"dnsdump: {name}: {error}", file=sys.stderr)
        status = 2
    print_counts()
    return status or int(bool(statuses))


if __name__ == "__main__":
    if len(sys.argv) == 2:
        sys.exit(main(sys.argv[1]))
    print("usage: dnsdump.py FILE|FOLDER", file=sys.stderr)
    sys.exit(2)
