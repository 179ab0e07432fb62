#!/usr/bin/env python3
"""Checks the pages of the repository. The last line is 'N as wanted, M not'; each page and each rule is one.

- Every link leads to a file that is there, and to a heading that it has.
- Every code span that looks like a name of the repository (a path, or an identifier with `::`, `_` or a capital inside) is
  found in its sources.
- No page uses a word that docs/GLOSSARY.md has a better one for. Code, quotes, quoted output, docs/API.md and docs/api, which are made of
  the sources' comments, are left out.
- Every block of `console` shows what its command prints (after `$ `), if the programs are built or ready-made.

tests/docs.txt has the exceptions: a line is `name NAME` or `word PAGE TEXT`.
"""
import pathlib
import re
import shlex
import subprocess
import sys

TOP = pathlib.Path(__file__).resolve().parent.parent
PAGES = [TOP / "README.md", *sorted(TOP.glob("docs/**/*.md")), *sorted(TOP.glob("*/README.md")), *sorted(TOP.glob("rust/*/README.md"))]
PAGES += [page for page in (TOP / "CONTRIBUTING.md",) if page.exists()]

# Words that are not used, and what to write instead.
WORDS = [
    (r"(?-i:(?<!in )(?<!take )\bplaces?\b)", "offset, index, rank or position"),
    (r"\bstands?\b(?! for)|\bstood\b", "is, is encoded at, starts at"),
    (r"\bbehind\b", "after, follows"),
    (r"\bin front of\b", "before"),
    (r"\brefus(?:e|es|ed|als?|ing)\b", "rejected, fails with, error"),
    (r"\banswers?\b|\banswered\b", "returns, result"),
    (r"\bwant of memory\b|\bwant of buffer\b", "out of memory, allocation fails"),
    (r"\btakes? (?:no )?memory\b|\basks? for memory\b|\brequests? for memory\b", "allocates, allocation"),
    (r"\bhands? (?:\w+ )?on\b", "re-exports"),
    (r"\browless\b", "without a format of its own"),
    (r"\bplain table\b", "reference model"),
    (r"\breplayed rows?\b", "golden test"),
    (r"\bletters as they (?:are|came)\b", "case preserved"),
    (r"\bcut record\b", "truncated"),
]


def exceptions():
    names, words = set(), []
    for line in (TOP / "tests/docs.txt").read_text(encoding="utf-8").splitlines():
        kind, _, rest = line.partition(" ")
        if kind == "name":
            names.add(rest)
        elif kind == "word":
            words.append(tuple(rest.split(" ", 1)))
    return names, words


def prose(text):
    """The text without blocks of code, code spans, quotations and links' targets."""
    text = re.sub(r"```.*?```", "", text, flags=re.S)
    text = re.sub(r"(?m)^>.*$", "", text)
    text = re.sub(r"``.*?``|`[^`\n]*`", "", text)
    return re.sub(r"\]\([^)]*\)", "]", text)


def anchor(heading):
    heading = re.sub(r"[`*]", "", heading.strip().lower())
    return re.sub(r"[^\w\- ]", "", heading).replace(" ", "-")


def bad_links(page, text):
    for target in re.findall(r"\]\(([^)\s]+)\)", re.sub(r"```.*?```", "", text, flags=re.S)):
        if re.match(r"[a-z]+:", target):
            continue
        name, _, part = target.partition("#")
        file = (page.parent / name) if name else page
        if not file.exists():
            yield f"a link to {target}, which is not there"
        elif part and file.suffix == ".md":
            heads = re.findall(r"(?m)^#+ (.*)$", file.read_text(encoding="utf-8"))
            if part not in [anchor(it) for it in heads]:
                yield f"a link to {target}: no such heading"


def sources():
    listed = subprocess.run(["git", "ls-files", "-co", "--exclude-standard"], cwd=TOP, capture_output=True, text=True, check=True)
    words, paths = set(), set()
    for name in listed.stdout.splitlines():
        file = TOP / name
        parts = pathlib.PurePath(name).parts
        paths.update("/".join(parts[i:j]) for i in range(len(parts)) for j in range(i + 1, len(parts) + 1))
        words.update(re.findall(r"[\w\-]+", file.stem))
        if file.suffix == ".md" or not file.exists():
            continue
        try:
            words.update(re.findall(r"[\w\-]+", file.read_text(encoding="utf-8")))
        except UnicodeDecodeError:
            pass
    return words, paths


def bad_names(text, words, paths, known):
    for span in re.findall(r"(?<!`)`([^`\n]+)`(?!`)", re.sub(r"```.*?```", "", text, flags=re.S)):
        if span in known:
            continue
        if re.fullmatch(r"[\w./\-]+", span) and "/" in span:
            if span.strip("/").lstrip("./") not in paths and not any(span.strip("/") in path for path in paths):
                yield f"`{span}`, which is no file"
        elif re.fullmatch(r"[A-Za-z_]\w*(?:::<\w+>)?(?:(?:::|\.)[A-Za-z_]\w*)*(?:\(\))?", span) and re.search(r"::|_|[a-z][A-Z]", span):
            missing = [part for part in re.findall(r"\w+", span) if part not in words]
            if missing:
                yield f"`{span}`: no {missing[0]} in the sources"


def bad_words(page, text, allowed):
    name = str(page.relative_to(TOP))
    if name == "docs/API.md" or name.startswith("docs/api/"):
        return
    for line in prose(text).splitlines():
        for pattern, better in WORDS:
            found = re.search(pattern, line, re.I)
            if found and not any(name == at and part in line for at, part in allowed):
                yield f"'{found.group(0)}' ({better}): {line.strip()[:90]}"


def shown(text):
    """The commands of the blocks of `console`, with what they print."""
    for block in re.findall(r"```console\n(.*?)```", text, re.S):
        command, output = None, []
        for line in [*block.splitlines(), "$ "]:
            if line.startswith("$ "):
                if command:
                    yield command, "".join(f"{it}\n" for it in output)
                command, output = line[2:], []
            else:
                output.append(line)


def is_there(program):
    """Whether a program is built here, or ready-made in dist/ from the sources that are here."""
    if (TOP / "crates" / program / "out" / program).exists():
        return True
    return subprocess.run([TOP / "tools/ready.sh", program], capture_output=True, check=False).returncode == 0


def bad_output(text):
    for command, output in shown(text):
        program = {"./run": "rdata", "./zone": "zone_text"}.get(shlex.split(command)[0])
        if program is None and "|" in command:
            program = "zone_text"
        if program is None or not is_there(program):
            continue
        ran = subprocess.run(["bash", "-c", command], cwd=TOP, capture_output=True, text=True, check=False)
        if ran.stdout != output:
            yield f"`{command}` prints {ran.stdout!r}"


def main():
    known, allowed = exceptions()
    words, paths = sources()
    good = bad = 0
    for page in PAGES:
        text = page.read_text(encoding="utf-8")
        rules = [bad_links(page, text), bad_names(text, words, paths, known), bad_words(page, text, allowed), bad_output(text)]
        for found in map(list, rules):
            good += not found
            bad += bool(found)
            for it in found:
                print(f"{page.relative_to(TOP)}: {it}")
    print(f"{good} as wanted, {bad} not")
    return bad != 0


if __name__ == "__main__":
    sys.exit(main())
