#!/usr/bin/env python3
"""Compares docs/api with the interfaces of the crates that the compiler has written: every name that a root exports has a heading on
its page, and every type exactly the calls that the interface has, with their signatures. tools/api.py makes the pages from the
sources and does not read the interfaces.

The interfaces are in the libraries that `rt ci` has proved and left (crates/NAME/out/rlib), so this is run after it; an argument is
another checkout whose libraries are taken. A crate without one is skipped. The last line is 'N as wanted, M not': each type and each
page is one.
"""
import pathlib
import re
import sys

TOP = pathlib.Path(__file__).resolve().parent.parent
WITHIN = pathlib.Path(sys.argv[1]).resolve() if len(sys.argv) > 1 else TOP
USERS = ["dns_rdata", "dns_message", "dns_registry", "dns_rdata_zone", "dns_rdata_laws"]


def interface(crate):
    """The folder of the interface, if it is there."""
    folder = WITHIN / f"crates/{crate}/out/rlib/{crate}.rlib/interface/lang/src"
    return folder if (folder / "lib.rt").exists() else None


def bare(signature):
    """A signature without blanks, commas at ends and words that say nothing of its type."""
    text = re.sub(r"\bmut (?=\w+ ?:)", "", signature)
    text = re.sub(r"\s+", "", text)
    text = re.sub(r",(?=[)>}])", "", text)
    return text


def calls_of(folder):
    """The public calls in a crate's interface: (type or None, name) to the signature. Those of a trait are under its name."""
    found = {}
    for file in sorted(folder.glob("**/*.rt")):
        owner = None
        for line in file.read_text(encoding="utf-8").split("\n"):
            impl = re.match(r"^(?:# \[.*?\] )*impl (?:< .*? > )?(\w+)(?: < .*? >)? (?:where .*)?\{$", line)
            trait = re.match(r"^(?:# \[.*?\] )*pub trait (\w+)", line)
            if impl or trait:
                owner = (impl or trait).group(1)
            elif re.match(r"^(?:# \[.*?\] )*impl ", line):
                owner = ""
            elif line.startswith("}"):
                owner = None
            call = re.match(r"^(?:# \[.*?\] )*(pub )?(?:const )?(fn (\w+) .*?)(?: ;)?$", line)
            if call and owner != "" and (call.group(1) or owner):
                found.setdefault((owner, call.group(3)), []).append((bare(call.group(2)), file))
    return found


def exports_of(folder):
    """The names that the root exports from other files and crates."""
    text = (folder / "lib.rt").read_text(encoding="utf-8")
    names = re.findall(r"(?m)^pub use (?:\w+ :: )+(\w+)(?: as (\w+))? ;", text)
    return {other or name for name, other in names}


def sections(page):
    """The headings of a page, each with the files and the signatures of the calls below it."""
    found, name = {}, None
    for line in page.split("\n"):
        heading = re.match(r"^#{2,4} `(\w+)`$", line)
        if heading:
            name = heading.group(1)
            found.setdefault(name, [])
        elif line.startswith("## Functions") or line.startswith("## Module"):
            name = re.sub(r"\W+", "", line) or None
            found.setdefault(name, [])
        for signature, path in re.findall(r"^\|? ?\[`(fn .*?)`\]\(../../(crates/[^)#]*)#L\d+\)", line):
            found[name].append((bare(signature.replace("\\|", "|")), path))
    return found


def main():
    good = bad = 0
    folders = {}
    for path in sorted((TOP / "crates").glob("dns_*")):
        folders[path.name] = interface(path.name)
    known = {crate: calls_of(folder) for crate, folder in folders.items() if folder}
    on_pages = set()
    for crate in USERS:
        text = (TOP / f"docs/api/{crate}.md").read_text(encoding="utf-8")
        found = sections(text)
        for name, calls in found.items():
            for signature, path in calls:
                at = path.split("/")[1]
                on_pages.add((at, name, signature))
        if not folders[crate]:
            print(f"skipped: {crate} has no proved library here whose interface could be compared with its page")
            continue
        lacking = sorted(exports_of(folders[crate]) - set(re.findall(r"`(\w+)`", "\n".join(re.findall(r"(?m)^#+ .*$", text)))
                         ) - set(re.findall(r"\[`fn (\w+)", text)) - set(re.findall(r"(?m)^## Module `(\w+)`", text)))
        modules = set(re.findall(r"(?m)^pub mod (\w+) ;", (folders[crate] / "lib.rt").read_text(encoding="utf-8")))
        below = {path.stem for other in folders for path in (TOP / f"crates/{other}/src").glob("**/*.rt")}
        lacking = [name for name in lacking if name not in modules | below]
        good, bad = good + (not lacking), bad + bool(lacking)
        for name in lacking:
            print(f"not as wanted: docs/api/{crate}.md has no heading for {name}")
    by_type = {}
    for at, name, signature in on_pages:
        by_type.setdefault((at, name), set()).add(signature)
    for (at, name), signatures in sorted(by_type.items()):
        if at not in known:
            continue
        owners = {owner for owner, _ in known[at] if owner}
        # A name for a type of another crate.
        alias = {"CanonicalOctets": "Cursor"}.get(name, name)
        if alias in owners:
            there = {signature for (owner, _), every in known[at].items() if owner == alias for signature, _ in every}
        else:
            there = {signature for (owner, _), every in known[at].items() if not owner for signature, _ in every}
            there &= signatures
        same = signatures == there
        good, bad = good + same, bad + (not same)
        for signature in sorted(signatures - there):
            print(f"not as wanted: {at}, {name}: the page has `{signature}`, and the interface has not")
        for signature in sorted(there - signatures):
            print(f"not as wanted: {at}, {name}: the page has no `{signature}`")
    print(f"{good} as wanted, {bad} not")
    return bad != 0


if __name__ == "__main__":
    sys.exit(main())
