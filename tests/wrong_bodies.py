#!/usr/bin/env python3
"""Tries wrong bodies: tests/wrong_bodies/CRATE/*.edit, each of which the prover must refuse.

An edit with a line `only: FUNCTION` is tried on that function alone and on those that it calls, over the libraries that `rt ci`
has proved and left in crates/*/out/rlib. Edits of different functions of a crate are tried at once, since the prover says of
each function by itself whether it is proved. ./check tries these after `rt ci`. All others, and all with --whole, are tried by
`rt must-fail` on a copy: do that for a crate if a contract, a definition or a proof of it has changed.

    tests/wrong_bodies.py [CRATE ..]           those with a function, of these crates or of all
    tests/wrong_bodies.py --whole [CRATE ..]   each edit by a check of its whole crate

An edit has lines `file: FILE`, `old: TEXT` and `new: TEXT`: each TEXT of `old` is in FILE exactly once. The last line that is
printed is 'N as wanted, M not'.
"""
import os
import pathlib
import re
import shutil
import subprocess
import sys
import tempfile
import time
from concurrent.futures import ThreadPoolExecutor

TOP = os.path.dirname(os.path.dirname(os.path.abspath(__file__)))
EDITS = f"{TOP}/tests/wrong_bodies"


def kit():
    """The folder of the Rattle kit."""
    return os.path.dirname(subprocess.run(["rt", "doc"], capture_output=True, text=True, check=True).stdout.strip())


def libraries():
    """What crates.txt says: for each crate the words after its name, and the libraries that it uses."""
    found = {}
    with open(f"{TOP}/crates.txt", encoding="utf-8") as lines:
        for line in lines:
            if ":" in line and not line.startswith("#"):
                name, uses = line.split(":", 1)
                found[name.split()[0]] = (name.split()[1:], uses.split())
    return found


def below(crates, name):
    """The crates of the repository that a crate is made of, without itself."""
    found = []
    for it in crates[name][1]:
        if it in crates:
            found += [*below(crates, it), it]
    return list(dict.fromkeys(found))


def words(crates, name, folder):
    """The words of a check of a crate."""
    kind, uses = crates[name]
    found = ["--crate-name", name, "src/lib.rt", "--extern", f"std={folder}/rlibs/std.rlib"]
    for it in uses:
        at = f"{TOP}/crates/{it}/out/rlib" if it in crates else f"{folder}/rlibs"
        found += ["--extern", f"{it}={at}/{it}.rlib"]
    for it in [f"{folder}/rlibs", *[f"{TOP}/crates/{it}/out/rlib" for it in below(crates, name)]]:
        found += ["-L", f"dependency={it}"]
    found += ["--antt-project", f"{folder}/rattle/logic/antt-project.json", "--logic-built", f"{folder}/logic_built"]
    return [*found, "--links", f"{name}=", *(["--crate-type", "staticlib"] if "staticlib" in kind else []), "--jobs", "1"]


def read_edit(path):
    """The function that an edit names, if it does, and its changes: file, old text, new text."""
    only, file, old, changes = None, None, None, []
    with open(path, encoding="utf-8") as lines:
        for line in lines.read().splitlines():
            kind, _, text = line.partition(": ")
            if kind == "only":
                only = text
            elif kind == "file":
                file = text
            elif kind == "old":
                old = text
            elif kind == "new":
                changes.append((file, old, text))
    return only, changes


def apply(changes, folder):
    """Makes the changes in a copy of a crate. Returns what is wrong with them, if something is."""
    for file, old, new in changes:
        with open(f"{folder}/{file}", encoding="utf-8") as it:
            text = it.read()
        if text.count(old) != 1:
            return f"the text is in {file} {text.count(old)} times: {old}"
        with open(f"{folder}/{file}", "w", encoding="utf-8") as it:
            it.write(text.replace(old, new))
    return None


def refused(said, only, status):
    """What the prover says of a wrong body of a function: None if it refuses it, or else why that is no refusal."""
    line = re.search(rf"^fn (?:\S+::)?{re.escape(only)}: (.*)$", said, re.M)
    if status == 1 and line and re.match(r"not proved$|no proof: (?!.*; it calls ).*`search` did not prove", line[1]):
        return None
    if line and line[1] == "proved":
        return "PROVED, as it must not be"
    return "not tried:\n" + "\n".join(said.splitlines()[:6])


def batches(crate, edits):
    """The edits of a crate in batches that are tried at once: each of its own function, so that each has its own verdict."""
    found = []
    for edit in edits:
        only, changes = read_edit(f"{EDITS}/{crate}/{edit}")
        batch = next((it for it in found if all(only != other for _, other, _ in it)), None)
        if batch is None:
            found.append(batch := [])
        batch.append((edit, only, changes))
    return found


def try_batch(words_of, copy, batch):
    """Makes the changes of several edits in a copy of their crate, which it leaves as it was, and checks their functions. Returns
    for each edit why it is not refused, or None if it is."""
    before = {}
    for file in {file for _, _, changes in batch for file, _, _ in changes}:
        with open(f"{copy}/{file}", encoding="utf-8") as it:
            before[file] = it.read()
    wrong = [apply(changes, copy) for _, _, changes in batch]
    if any(wrong):
        wrong = [why or "not tried: another change cannot be made" for why in wrong]
    else:
        only = [word for _, name, _ in batch for word in ("--only", name)]
        ran = subprocess.run([*words_of, *only], cwd=copy, stdout=subprocess.PIPE, stderr=subprocess.STDOUT, text=True, errors="replace")
        wrong = [refused(ran.stdout, name, ran.returncode) for _, name, _ in batch]
    for file, text in before.items():
        with open(f"{copy}/{file}", "w", encoding="utf-8") as it:
            it.write(text)
    return wrong


def try_apart(words_of, copy, batch):
    """Tries the edits of a batch at once, and those that are not refused once more by themselves: the prover refuses a caller of a
    function that is not proved whatever its own body is, says so, and that does not count. Gives each edit with why it is not
    refused, or None if it is."""
    wrong = try_batch(words_of, copy, batch)
    left = [it for it, why in zip(batch, wrong) if why is not None]
    yield from ((edit, None) for (edit, _, _), why in zip(batch, wrong) if why is None)
    if len(batch) == 1:
        yield from ((edit, wrong[0]) for edit, _, _ in left)
    elif left:
        for part in [left] if len(left) < len(batch) else [[it] for it in left]:
            yield from try_apart(words_of, copy, part)


def try_crate(crates, folder, name, edits):
    """Tries the edits of a crate, batch by batch: what one check has proved of functions that no edit changes serves the next ones."""
    good = 0
    with tempfile.TemporaryDirectory() as copy:
        for part in ("src", "specs", "proofs"):
            if os.path.isdir(f"{TOP}/crates/{name}/{part}"):
                shutil.copytree(f"{TOP}/crates/{name}/{part}", f"{copy}/{part}")
        os.mkdir(f"{copy}/kept")
        words_of = [f"{folder}/bin/rattle", "check", *words(crates, name, folder), "--incremental", f"{copy}/kept"]
        for batch in batches(name, edits):
            begun = time.monotonic()
            for edit, wrong in try_apart(words_of, copy, batch):
                print(f"{name} {edit}: {'refused, as it must be' if wrong is None else wrong}", flush=True)
                good += wrong is None
            print(f"{name}: {len(batch)} wrong bodies in {time.monotonic() - begun:.0f} s", flush=True)
    return good


def misplaced(names):
    """Of the edits that name no function, which are not tried here, those whose text is not in its file exactly once."""
    for it in names:
        for edit in sorted(os.listdir(f"{EDITS}/{it}")):
            only, changes = read_edit(f"{EDITS}/{it}/{edit}")
            for file, old, _ in [] if only else changes:
                path = pathlib.Path(f"{TOP}/crates/{it}/{file}")
                count = path.read_text(encoding="utf-8").count(old) if path.is_file() else 0
                if count != 1:
                    yield f"{it} {edit}: the text is in {file} {count} times: {old}"


def by_function(names):
    """Tries the edits of these crates that name a function."""
    crates, folder = libraries(), kit()
    edits = {it: [edit for edit in sorted(os.listdir(f"{EDITS}/{it}")) if read_edit(f"{EDITS}/{it}/{edit}")[0]] for it in names}
    many = sum(map(len, edits.values()))
    missing = {lib for it in names if edits[it] for lib in below(crates, it) if not os.path.isdir(f"{TOP}/crates/{lib}/out/rlib/{lib}.rlib")}
    if missing:
        print(f"not as wanted: these libraries are not proved here: {' '.join(sorted(missing))}; rt ci proves and leaves them")
        return 0, many
    # (those with the most edits first)
    order = sorted((it for it in names if edits[it]), key=lambda it: -len(edits[it]))
    with ThreadPoolExecutor(int(os.environ.get("RT_JOBS") or os.cpu_count() or 1)) as lanes:
        good = sum(lanes.map(lambda it: try_crate(crates, folder, it, edits[it]), order))
    lost = list(misplaced(names))
    for line in lost:
        print(line)
    return good, many - good + len(lost)


def by_crate(names):
    """Tries all edits of these crates on a copy of the repository."""
    with tempfile.TemporaryDirectory() as copy:
        shutil.copytree(f"{TOP}/crates", f"{copy}/crates", ignore=shutil.ignore_patterns("out", "must-fail"))
        for it in ("crates.txt", "HANDLES"):
            shutil.copy(f"{TOP}/{it}", copy)
        for it in names:
            shutil.copytree(f"{EDITS}/{it}", f"{copy}/crates/{it}/must-fail")
        ran = subprocess.Popen(["rt", "must-fail", *names], cwd=copy, stdout=subprocess.PIPE, stderr=subprocess.STDOUT, text=True)
        good = 0
        for line in ran.stdout:
            print(line, end="", flush=True)
            good += ": refused, as it must be" in line
        ran.wait()
    return good, sum(len(os.listdir(f"{EDITS}/{it}")) for it in names) - good


def main():
    given = [it for it in sys.argv[1:] if it != "--whole"]
    names = given or sorted(os.listdir(EDITS))
    for it in names:
        if not os.path.isdir(f"{EDITS}/{it}"):
            print(f"no wrong bodies of {it}\n0 as wanted, 1 not")
            return 1
    good, bad = (by_crate if "--whole" in sys.argv[1:] else by_function)(names)
    print(f"{good} as wanted, {bad} not")
    return bad > 0


if __name__ == "__main__":
    sys.exit(main())
