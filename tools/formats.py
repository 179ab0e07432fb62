#!/usr/bin/env python3
"""Makes the table of formats in docs/TYPES.md, of the rows of tests/registry/model.py, which tests/registry.py compares with the library.

    tools/formats.py            writes the table
    tools/formats.py --check    compares it with what would be written; the last line is 'N as wanted, M not'
"""
import pathlib
import sys

TOP = pathlib.Path(__file__).resolve().parent.parent
sys.path.insert(0, str(TOP / "tests/registry"))
import made  # noqa: E402
import model  # noqa: E402

PAGE = TOP / "docs/TYPES.md"
BEGIN, END = "| Type | Number | RFC | Fields |\n", "\n\nWhat the table says of a field"
KINDS = {"name": "name", "uname": "uncompressed name", "string": "string", "strings": "strings", "rest": "octets"}
RULES = {
    "some": "at least one octet",
    "tag": "letters and digits",
    "flags": "letters and digits",
    "zero": "0",
    "twelve": "at least 12 octets",
    "dnic": "at least four digits",
    "one_or_two": "one or two",
    "unless_no_key": "none if and only if the two highest bits of the flags are set",
    "power": "a digit and a power of ten",
    "latitude": "at most 90 degrees",
    "longitude": "at most 180 degrees",
    "prefix_length": "at most 128",
    "old_bitmap": "bits of types 1 to 127",
    "bitmap": "shortest bitmap",
    "parameters": "service parameters",
    "host": "length of the HIT, algorithm, length of the key in two octets, HIT, key, uncompressed names",
    "two": "a key and other data, each after its length in two octets",
    "mac": "a MAC after its length in two octets, id, error, other data after its length",
    "items": "address prefixes, or none",
}


def shown(field):
    """A field: its name, its kind, and what is asked of it."""
    base, rules, label = field
    words = [KINDS.get(base, base.replace("octets", "") + " octets" if base.startswith("octets") else base)]
    if base == "strings" and rules == ["some"]:
        words, rules = ["one string or more"], []
    if "bitmap" in rules and "some" in rules:
        rules = ["bitmap"]
        words = ["at least one window"]
    words += [RULES[rule] for rule in rules]
    if base in ("gateway", "relay"):
        words = ["nothing, an IPv4 address, an IPv6 address or an uncompressed name, by the octet before" if base == "relay" else "nothing, an IPv4 address, an IPv6 address or an uncompressed name, by the gateway type"]
    if base == "suffix":
        words = ["the octets that the prefix leaves"]
    if base == "prefix_name":
        words = ["uncompressed name, if there is a prefix"]
    return f"`{label}` ({', '.join(words)})"


def table():
    """The lines of the table."""
    lines = [BEGIN.rstrip("\n"), "|---|---|---|---|"]
    for line in model.ROWS.splitlines():
        if not line:
            continue
        kind, (name, fields) = model.row(line)
        if kind == 55:
            fields = [("rest", ["host"], "identity")]
        if kind == 249:
            fields = [*fields[:5], ("rest", ["two"], "key_and_other")]
        if kind == 250:
            fields = [*fields[:3], ("rest", ["mac"], "mac_and_other")]
        source = line.split("|")[1].strip()
        lines.append(f"| {name} | {kind} | {source} | {', '.join(map(shown, fields)) or 'none'} |")
    return "\n".join(lines)


if __name__ == "__main__":
    page = PAGE.read_text(encoding="utf-8")
    made.write_or_check(PAGE, page[: page.index(BEGIN)] + table() + page[page.index(END) :])
