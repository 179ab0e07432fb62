#!/usr/bin/env python3
"""Compares the examples in README.md, docs/GUIDE.md and the comments of the crates with the crate `guide`,
which are proved and run.

Each block that is marked as Rust must be in one of them line by line, but for how far it is indented and for `pub`.

A comment of a record that says "The RDATA `OCTETS` is `TEXT`" is tried with the program `rdata`, if it is built. The last
line is 'N as wanted, M not'.
"""
import pathlib
import re
import subprocess
import sys

TOP = pathlib.Path(__file__).resolve().parent.parent


def plain(line):
    return re.sub(r"^pub(\(crate\))? ", "", line.strip())


def comment_lines(text):
    """The text of the doc comments of a file; other lines end a comment and are None."""
    for line in text.splitlines():
        found = re.match(r"\s*//[/!] ?(.*)$", line)
        yield found.group(1) if found else None


def blocks(lines):
    """Each block between a line with ```rust and one with ```."""
    block = None
    for line in lines:
        if block is None:
            if line is not None and line.strip() == "```rust":
                block = []
        elif line is None or line.strip() == "```":
            yield block
            block = None
        else:
            block.append(plain(line))


def octets_examples():
    """The records' examples in octets: type, octets and text."""
    for file in sorted(TOP.glob("crates/dns_rdata_*/src/**/*.rt")):
        text = re.sub(r"\n/// ?", " ", file.read_text(encoding="utf-8"))
        for octets, wanted, name in re.findall(r"The RDATA `([0-9a-f]+)` is `([^`]*)`[^\n]*\n(?:#.*\n)*pub struct (\w+)", text):
            yield name, octets, wanted


def wrong_octets():
    """How many of these examples are as wanted, and those that are not."""
    program, good, bad = TOP / "crates/rdata/out/rdata", 0, []
    if not program.exists():
        return 0, []
    for name, octets, wanted in octets_examples():
        words = [str(program), "read", name, "0", str(len(octets) // 2), octets]
        printed = subprocess.run(words, capture_output=True, text=True, check=False).stdout
        if f"\ntext {wanted}\n" in printed:
            good += 1
        else:
            bad.append(f"{name} {octets}: {printed.splitlines()[1:2]}, and not {wanted}")
    return good, bad


def main():
    sources = [
        [plain(line) for line in file.read_text(encoding="utf-8").splitlines()]
        for file in sorted(TOP.glob("crates/guide/src/*.rt"))
    ]

    def is_there(block):
        size = len(block)
        return size > 0 and any(
            source[at : at + size] == block for source in sources for at in range(len(source) - size + 1)
        )

    pages = [TOP / "README.md", TOP / "docs/GUIDE.md"]
    files = [(page, page.read_text(encoding="utf-8").splitlines()) for page in pages]
    for file in sorted(TOP.glob("crates/*/src/**/*.rt")):
        files.append((file, comment_lines(file.read_text(encoding="utf-8"))))
    good = bad = 0
    for file, lines in files:
        for block in blocks(lines):
            if is_there(block):
                good += 1
            else:
                bad += 1
                print(f"{file.relative_to(TOP)}: an example that is not in the crate guide: {block[0] if block else ''}")
    if good == 0:
        bad += 1
        print("no example was found")
    as_wanted, others = wrong_octets()
    good, bad = good + as_wanted, bad + len(others)
    for it in others:
        print(it)
    print(f"{good} as wanted, {bad} not")
    return bad != 0


if __name__ == "__main__":
    sys.exit(main())
