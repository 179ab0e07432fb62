#!/usr/bin/env python3
"""Makes the tables of docs/DIFFERENCES.md from stored answers: what this library and others do with the same octets, and what the
original does where this library differs.

    tools/differences.py            writes the tables into the page
    tools/differences.py --check    compares; the last line is 'N as wanted, M not'
    tools/differences.py --ours     first writes this library's lines of tests/peers/answers.tsv, by its program

`tests/peers/octets.tsv` has the octets, and `tests/peers/answers.tsv` what each library returned for them (tests/peers/run.py asks
the libraries). With --check this library's program is run over the octets, and must return what its lines say: the program that is
proved and built here, else the ready-made one, else a quick build. `tests/peers/hickory/answers.tsv` is what a program over the
original printed (tests/peers/hickory/README.md), and a row of `tests/peers/hickory/rows.tsv` that the program shows names these
lines.
"""
import collections
import pathlib
import re
import subprocess
import sys

TOP = pathlib.Path(__file__).resolve().parent.parent
PEERS = TOP / "tests/peers"
PAGE = TOP / "docs/DIFFERENCES.md"
OURS, HICKORY = "this library", "hickory"
OTHERS = ["BIND", "Knot DNS", "ldns", "dnspython", "miekg/dns"]


class Case(collections.namedtuple("Case", "row name type before rdata after")):
    """Octets that are given to the libraries, as the RDATA of a record in a message."""

    @property
    def key(self):
        return self.row, self.name

    @property
    def place(self):
        return len(self.before) + 11

    @property
    def message(self):
        fixed = self.type.to_bytes(2, "big") + b"\0\1\0\0\x0e\x10" + len(self.rdata).to_bytes(2, "big")
        return self.before + b"\0" + fixed + self.rdata + self.after


def lines_of(path):
    """The fields of each line of a file, without comments."""
    for line in path.read_text(encoding="utf-8").splitlines():
        if line and not line.startswith("#"):
            yield line.split("\t")


def cases():
    found = []
    for row, name, kind, *octets in lines_of(PEERS / "octets.tsv"):
        found.append(Case(row, name, int(kind), *(bytes.fromhex(part.strip("-")) for part in octets)))
    return found


def answers():
    """For the key of a case and a library: its version, `accepted` or `rejected`, and the octets or the reason."""
    if not (PEERS / "answers.tsv").exists():
        return {}
    found = {}
    for row, name, _, _, library, version, state, *more in lines_of(PEERS / "answers.tsv"):
        found[(row, name), library] = (version, state, more[0] if more else "")
    return found


def write_answers(all_cases, libraries, found):
    with open(PEERS / "answers.tsv", "w", encoding="utf-8") as file:
        file.write("# What libraries return for the octets of octets.tsv (run.py): the row, the case, the type, the RDATA, the library, its\n")
        file.write("# version, what it does, and the reason of a rejection or, where they differ from the RDATA, the octets that it gives\n")
        file.write("# back. `-` stands for none. More than 40 octets of one kind in a row are written as the octet and `..`.\n")
        for case in all_cases:
            octets = case.rdata.hex() or "-"
            for library in libraries:
                if (case.key, library) in found:
                    version, state, more = found[case.key, library]
                    more = "" if more == octets else more
                    file.write("\t".join([*case.key, str(case.type), short(octets), library, version, state, short(more)]).rstrip() + "\n")


def short(text):
    return re.sub(r"([0-9a-f]{2})\1{40,}", r"\1..", text)


def program():
    """The program `rdata` that is proved and built here, or the ready-made one, if it is of these sources."""
    script = f'top={TOP}; . {TOP}/tests/build.sh; is_built {TOP}/crates/rdata/out/rdata rdata && echo {TOP}/crates/rdata/out/rdata'
    for command in (["bash", "-c", script], [TOP / "tools/ready.sh", "rdata"]):
        ran = subprocess.run(command, capture_output=True, text=True, check=False)
        if ran.returncode == 0:
            return ran.stdout.strip()
    return None


def ours(all_cases):
    """What this library does with each case: `accepted` and the octets that it emits, or `rejected`."""
    words = [["read", str(case.type), str(case.place), str(len(case.rdata)), case.message.hex()] for case in all_cases]
    built = program()
    if built:
        ran = [subprocess.run([built, *each], capture_output=True, text=True, check=False) for each in words]
        printed = [(str(it.returncode), it.stdout) for it in ran]
    else:
        sys.path.insert(0, str(TOP / "tests"))
        import damaged  # pylint: disable=import-outside-toplevel

        runs = [damaged.Run("others", each, "0") for each in words]
        told = [line.partition("\t") for line in damaged.answers_to(runs, ["--checked"])]
        printed = [(status, damaged.plain(output)) for status, _, output in told]
    found = []
    for case, (status, output) in zip(all_cases, printed):
        emitted = re.search(r"(?m)^emitted (\S+)$", output)
        more = "" if not emitted or emitted[1] == (case.rdata.hex() or "-") else emitted[1]
        found.append(({"0": "accepted", "1": "rejected"}.get(status, f"status {status}"), more))
    return found


def listed(names, some):
    """Libraries, each with the cases that it is about unless they are all."""
    return ", ".join(name if not of else f"{name} ({'; '.join(of)})" for name, of in zip(names, some))


def state_of(found, case, library):
    _, state, more = found[case.key, library]
    if state == "accepted" and more:
        return "unwritable" if more.startswith("!") else "changed"
    return state


def elsewhere(group, found, changed):
    """What the other libraries do with the cases of a row."""
    parts = []
    for state, said in (
        ("rejected", "rejected by {}"),
        ("accepted", "accepted by {}"),
        ("changed", "accepted by {}, " + (changed or "CHANGED")),
        ("unwritable", "read and not written by {}"),
    ):
        names, some = [], []
        for library in OTHERS:
            of = [case for case in group if state_of(found, case, library) == state]
            if of:
                names.append(library)
                some.append([case.name for case in of] if len(of) < len(group) else [])
        if names:
            all_of = len(names) == len(OTHERS) and not any(some)
            parts.append(said.format("all" if all_of else listed(names, some)))
    return "; ".join(parts)


def here(group, found, note):
    states = {found[case.key, OURS][1] for case in group}
    assert len(states) == 1, f"{group[0].row}: this library accepts some of a row and rejects others"
    original = {found[case.key, HICKORY][1] for case in group}
    said = states.pop() + (f"{note}" if note else "")
    return said if original == {said.split()[0].rstrip(",:;")} else f"{said} (hickory: {'; '.join(sorted(original))})"


def others():
    """The tables of octets: where libraries differ from this one, and where all do the same."""
    found, groups = answers(), collections.OrderedDict()
    for case in cases():
        groups.setdefault(case.row, []).append(case)
    versions = {library: found[key, name][0] for (key, name) in found for library in [name]}
    differ, same, used = [], [], []
    for row, octets, note, changed, reason in lines_of(PEERS / "rows.tsv"):
        group = groups[row]
        used.append(row)
        state = found[group[0].key, OURS][1]
        note = "" if note == "-" else note
        is_same = all(state_of(found, case, library) == state for case in group for library in OTHERS) and not note
        line = f"| {octets} | {here(group, found, note)} |"
        if is_same:
            same.append(f"{line} {reason} |")
        else:
            differ.append(f"{line} {elsewhere(group, found, '' if changed == '-' else changed)} | {reason} |")
    assert sorted(used) == sorted(groups), f"rows.tsv and octets.tsv have other rows: {set(used) ^ set(groups)}"
    named = ", ".join(f"{library} {versions[library]}" for library in OTHERS)
    return [
        f"The other libraries are {named}; hickory {versions[HICKORY]} does what this library does, but where the second column says so.",
        "",
        "| Octets | Here | Elsewhere | Reason |",
        "|---|---|---|---|",
        *differ,
        "",
        "These are the same in all of them:",
        "",
        "| Octets | Here and elsewhere | Reason |",
        "|---|---|---|",
        *same,
    ]


def shown_by_original():
    """What the program over the original printed: the name of a line, and its result."""
    return dict(line[:2] for line in lines_of(PEERS / "hickory/answers.tsv"))


def from_hickory(section):
    """A table of differences from the original, and what of it is not as the stored lines say."""
    printed, wrong = shown_by_original(), []
    out = [f"| {'Record' if section == 'records' else 'Subject'} | hickory-proto | Here |", "|---|---|---|"]
    for at, subject, theirs, mine, evidence in lines_of(PEERS / "hickory/rows.tsv"):
        if at != section:
            continue
        mark = "" if evidence != "-" else " *"
        out.append(f"| {subject}{mark} | {theirs} | {mine} |")
        for each in [] if evidence in ("-", "source") else evidence.split("; "):
            name, _, result = each.partition("=")
            if printed.get(name) != result:
                wrong.append(f"{subject}: {name} is {printed.get(name)!r}, and the row rests on {result!r}")
    return out, wrong


def page():
    """The page with its tables, and what is wrong with the rows."""
    text, wrong = PAGE.read_text(encoding="utf-8"), []
    parts = {"others": others()}
    for section in ("all", "names", "records"):
        parts[f"hickory-{section}"], more = from_hickory(section)
        wrong += more
    for name, lines in parts.items():
        begin, end = f"<!-- made by tools/differences.py: {name} -->", "<!-- end -->"
        head, found, rest = text.partition(begin + "\n")
        assert found, f"docs/DIFFERENCES.md has no line {begin}"
        text = head + found + "\n" + "\n".join(lines) + "\n\n" + end + rest.partition(end)[2]
    return text, wrong


def main():
    all_cases = cases()
    if "--ours" in sys.argv:
        kept = {key: it for key, it in answers().items() if key[1] != OURS}
        kept.update({(case.key, OURS): ("-", *it) for case, it in zip(all_cases, ours(all_cases))})
        order = [OURS, HICKORY, *OTHERS]
        write_answers(all_cases, order, kept)
    made, wrong = page()
    if "--check" not in sys.argv:
        PAGE.write_text(made, encoding="utf-8")
        print("\n".join(wrong))
        return
    good = bad = 0
    for it in wrong:
        print(f"not as wanted: {it}")
    good, bad = good + (not wrong), bad + bool(wrong)
    same = PAGE.read_text(encoding="utf-8") == made
    if not same:
        print("docs/DIFFERENCES.md is not what tools/differences.py makes")
    good, bad = good + same, bad + (not same)
    stored = answers()
    for case, (state, more) in zip(all_cases, ours(all_cases)):
        is_so = stored[case.key, OURS][1:] == (state, short(more))
        good, bad = good + is_so, bad + (not is_so)
        if not is_so:
            print(f"not as wanted: {case.row}, {case.name}: {state} {more}")
    print(f"{good} as wanted, {bad} not")


if __name__ == "__main__":
    main()
