#!/usr/bin/env python3
"""The counts that pages name, from the tests themselves.

    tools/counts.py            writes the numbers into the pages
    tools/counts.py --check    compares; the last line is 'N as wanted, M not'

A test that makes its cases as it runs notes their number in out/counts (tests/counted.py): a count that no test has noted is left
as it is, and with --check it is skipped. The gate removes out/counts before its tests, so that the numbers are of its own run.
Everything else is counted in the files. Minutes and other measured numbers are in docs/dev/GATE.md, docs/LIMITS.md and
docs/PERFORMANCE.md, and are no counts.
"""
import pathlib
import re
import sys

TOP = pathlib.Path(__file__).resolve().parent.parent

# Where a page names counts: the page, and the text, which is there once.
PLACES = [
    ("README.md", "Golden tests: {golden-runs} runs of the program and {golden-calls} calls of the library"),
    ("README.md", "- {damaged} damaged messages and truncated texts give"),
    ("README.md", "- {calls} calls run with failing allocators and short buffers"),
    ("README.md", "that was written from the RFCs, over {registry} RDATA"),
    ("README.md", "every definition that the promise above rests on: {headline} lines"),
    ("docs/dev/GATE.md", "other results than the reference model's for {messages} truncated and changed messages"),
    ("docs/dev/GATE.md", "with a line `only: FUNCTION`, {wrong-bodies-tried} of {wrong-bodies}."),
    ("docs/ZONE_TEXT.md", "It has {type-names} names for {type-numbers} numbers"),
]


def golden():
    """How many lines of golden tests the program `rdata_replay` has: runs of the program, and calls."""
    text = (TOP / "tests/programs/rdata_replay/stdout").read_text(encoding="utf-8")
    lines = {name: int(number) for name, number in re.findall(r"(?m)^(\w+)\.tsv: (\d+) as wanted$", text)}
    return lines["rows"] + lines["real"], lines["calls"] + lines["wire"]


def type_names():
    """The names of types and their numbers, which zone text knows."""
    lines = (TOP / "tests/type_names.tsv").read_text(encoding="utf-8").splitlines()
    return [tuple(line.split("\t")) for line in lines if not line.startswith("#")]


def is_listed():
    """Whether docs/ZONE_TEXT.md lists exactly these names."""
    page = (TOP / "docs/ZONE_TEXT.md").read_text(encoding="utf-8")
    rows = re.findall(r"(?m)^\| (\d+) to (\d+) \| (.*) \|$", page)
    listed = [(name.strip("`"), number) for _, _, names in rows for name, number in re.findall(r"(\S+) (\d+)", names)]
    within = all(int(first) <= int(number) <= int(last) for first, last, names in rows for number in re.findall(r" (\d+)", f" {names}"))
    return within and sorted(listed) == sorted(type_names())


def counts():
    found = {"type-names": len(type_names()), "type-numbers": len({number for _, number in type_names()})}
    found["golden-runs"], found["golden-calls"] = golden()
    edits = sorted((TOP / "tests/wrong_bodies").glob("*/*.edit"))
    found["wrong-bodies"] = len(edits)
    found["wrong-bodies-tried"] = sum(bool(re.search(r"(?m)^only: ", edit.read_text(encoding="utf-8"))) for edit in edits)
    statement = (TOP / "docs/STATEMENT.md").read_text(encoding="utf-8")
    found["headline"] = int(re.search(r"\| the clauses of the headline[^|]*\| ([\d,]+) \|", statement)[1].replace(",", ""))
    for path in sorted((TOP / "out/counts").glob("*")):
        found[path.name] = int(path.read_text(encoding="utf-8"))
    return found


def lengths(told):
    """The table of docs/dev/ARCHITECTURE.md of how long the crates are, with the lines that they have now. A row names its crates."""
    programs = [path.parent.name for path in (TOP / "crates").glob("*/src") if not path.parent.name.startswith("dns_")]
    every = [0, 0, 0]

    def row(found):
        names = re.findall(r"`(\w+)`", found[1]) if "`dns_" in found[1] else programs
        folders = [TOP / "tests/programs"] if "`tests/programs`" in found[1] else [TOP / "crates" / name for name in names]
        sums = every if found[1] == "all" else [0, 0, 0]
        for path in [it for folder in folders for it in folder.rglob("*")] if sums is not every else []:
            within = path.relative_to(TOP).parts
            part = {".rt": 0, ".rattle": 0, ".antt": 2 if "proofs" in within else 1}.get(path.suffix)
            if part is not None and "out" not in within:
                sums[part] += path.read_text(encoding="utf-8").count("\n")
        if sums is not every:
            every[:] = [one + other for one, other in zip(every, sums)]
        return f"| {found[1]} | {', '.join(f'{it:,}' for it in sums)} | {sum(sums):,} |"

    return re.sub(r"(?m)^\| ([^|]+) \| [\d,]+, [\d,]+, [\d,]+ \| [\d,]+ \|", row, told)


def main():
    found, good, bad, skipped = counts(), 0, 0, set()
    page = TOP / "docs/dev/ARCHITECTURE.md"
    told = page.read_text(encoding="utf-8")
    if "--check" not in sys.argv:
        page.write_text(lengths(told), encoding="utf-8")
    elif lengths(told) == told:
        good += 1
    else:
        print("docs/dev/ARCHITECTURE.md has other lines of crates than the files have")
        bad += 1
    for page, text in PLACES:
        path = TOP / page
        names = re.findall(r"\{([\w-]+)\}", text)
        pattern = r"([\d,]*\d)".join(re.escape(part) for part in re.split(r"\{[\w-]+\}", text))
        told = path.read_text(encoding="utf-8")
        there = list(re.finditer(pattern, told))
        if len(there) != 1:
            print(f"{page} has the text '{text}' {len(there)} times")
            bad += 1
            continue
        wanted = [f"{found[name]:,}" if name in found else there[0][i + 1] for i, name in enumerate(names)]
        skipped.update(name for name in names if name not in found)
        made = text
        for name, number in zip(names, wanted):
            made = made.replace(f"{{{name}}}", number)
        if "--check" not in sys.argv:
            path.write_text(told.replace(there[0][0], made), encoding="utf-8")
        elif there[0][0] == made:
            good += 1
        else:
            print(f"{page} says '{there[0][0]}', and counted is '{made}'")
            bad += 1
    good, bad = good + is_listed(), bad + (not is_listed())
    if not is_listed():
        print("docs/ZONE_TEXT.md does not list the names of tests/type_names.tsv")
    for name in sorted(skipped):
        print(f"skipped: the count '{name}', since its test has not run here with all its cases")
    print(f"{good} as wanted, {bad} not")


if __name__ == "__main__":
    main()
