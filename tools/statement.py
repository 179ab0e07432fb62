#!/usr/bin/env python3
"""What one must read to believe the headline: every definition that the clauses of some public calls name, directly or
through other definitions, with its file, line and number of lines.

    tools/statement.py            writes docs/STATEMENT.md
    tools/statement.py --check    compares it with what would be written; the last line is 'N as wanted, M not'

It follows the imports of the files in crates/*/specs. Blank lines, comments and imports are not counted. Of what code declares
the kinds of fields and the rows of the types are counted (`DECLARED`): they are the grammar. Other structs and enums and the
words of the kit's standard library are not.
"""
import collections
import pathlib
import re

from made import write_or_check

TOP = pathlib.Path(__file__).resolve().parent.parent
PAGE = TOP / "docs/STATEMENT.md"
HEAD = re.compile(
    r"^(?:pub )?(?:abbrev|unfoldable|data|record|opaque|type_entry)\b(?: pub)?\s+([^\s:({]+)|^pub ([a-z_][^\s:({]*)\s*:"
)
WORD = re.compile(r"[^\s(){}\[\],;:∷≡×⊎→λ¬+\-*/<>≤≢↦|∥=\"]+")

# The calls of the headline: the file, the line at which the contract begins, how the page names them, and the clauses that
# say what the headline says.
CALLS = [
    ("dns_rdata/src/record_data.rt", "    pub fn read(", "`RData::read`", ["found", "refused", "kind"]),
    ("dns_rdata/src/record_data.rt", "    fn emit(", "`RData::emit`", ["again"]),
    ("dns_rdata/src/record_data.rt", "    fn eq(", "`==` of `RData`", ["canonical"]),
    ("dns_rdata/src/order.rt", "    fn cmp(", "`RData::cmp`", ["canonical"]),
]

# The same of octets that are looked at where they are, without an exception for memory.
LOOKED_AT = ("dns_rdata/src/view.rt", "    pub fn read(", "`RDataRef::read`", ["found", "refused", "allocates_nothing"])

# What code declares of the grammar: the crate, the module of the definitions, and the file.
DECLARED = [("dns_fields", "declared", "lib.rt"), ("dns_rows", "declared.row", "row.rt")]


def imports_of(text):
    """The names that `use` lines bring, each with its full path."""
    found = {}

    def take(prefix, tree):
        tree = tree.strip()
        inner = re.match(r"^([^{},]*?)\.?\{(.*)\}$", tree, re.S)
        if inner:
            head = ".".join(part for part in (prefix, inner.group(1).strip()) if part)
            for part in split(inner.group(2)):
                take(head, part)
            return
        name = re.match(r"^(\S+)(?:\s+as\s+(\S+))?$", tree)
        if name:
            path = ".".join(part for part in (prefix, name.group(1)) if part)
            found[name.group(2) or path.split(".")[-1]] = path

    def split(text):
        parts, part, depth = [], "", 0
        for c in text:
            depth += (c == "{") - (c == "}")
            if c == "," and depth == 0:
                parts.append(part)
                part = ""
            else:
                part += c
        return [it for it in [*parts, part] if it.strip()]

    for tree in re.findall(r"^\s*(?:pub |ghost )?use ([^;\n{]*(?:\{(?:[^{}]|\{[^{}]*\})*\})?[^;\n]*)", text, re.M):
        take("", tree.rstrip(";"))
    return found


class Specs:
    """All definitions of the repository."""

    def __init__(self):
        self.lines = {}  # (crate, module, name) -> (file, line, [lines])
        self.imports = {}  # (crate, module) -> {name: path}
        self.owner = {}  # a definition or a constructor -> the definition
        for file in sorted(TOP.glob("crates/*/specs/**/*.antt")):
            crate = file.relative_to(TOP / "crates").parts[0]
            module = ".".join(file.relative_to(TOP / "crates" / crate / "specs").with_suffix("").parts)
            self.read("" if module == "Lib" else module, crate, file)
        for crate, module, file in DECLARED:
            self.declared(crate, module, TOP / "crates" / crate / "src" / file)
        for (crate, module, name), (_, _, lines) in self.lines.items():
            self.owner[crate, module, name] = (crate, module, name)
            if re.match(r"^(?:pub )?data", lines[0]):
                for line in lines[1:]:
                    case = re.match(r"^\s+(?:pub )?([^\s:]+)\s*:", line)
                    if case:
                        self.owner.setdefault((crate, module, case.group(1)), (crate, module, name))

    def read(self, module, crate, file):
        text = file.read_text(encoding="utf-8")
        self.imports[crate, module] = imports_of(text)
        current, inside = None, False
        for number, line in enumerate(text.split("\n"), 1):
            if re.match(r"^(?:pub )?use ", line) or inside:
                inside = line.count("{") > line.count("}") or (inside and line.count("{") == line.count("}") and "}" not in line)
                current = None
                continue
            head = HEAD.match(line)
            if head:
                current = (crate, module, head.group(1) or head.group(2))
                if current not in self.lines:
                    self.lines[current] = (file, number, [])
            elif re.match(r"^(?:pub )?mod ", line):
                current = None
            if current and line.strip() and not line.strip().startswith("--"):
                self.lines[current][2].append(line)

    def declared(self, crate, module, file):
        """The enums, structs and statics of a file of code."""
        current = None
        for number, line in enumerate(file.read_text(encoding="utf-8").split("\n"), 1):
            head = re.match(r"^pub (enum|struct|static) (\w+)", line)
            if head:
                within = f"{module}.TheConstants" if head[1] == "static" else f"{module}.{head[2]}"
                current = (crate, within, head[2])
                self.lines[current] = (file, number, [])
                self.imports.setdefault((crate, within), {})
            if current and line.strip() and not line.strip().startswith("//"):
                self.lines[current][2].append(line)
                variant = re.match(r"^    (\w+)(?:\(.*\))?,$", line)
                if variant:
                    self.owner[crate, f"{current[1]}.TheVariants", variant[1]] = current
            if line in ("}", "];") or line.endswith("];"):
                current = None

    def at(self, path):
        """The definition that a full path names."""
        words = path.split(".")
        if len(words) < 4 or words[0] != "Rattle" or words[2] != "specs":
            return None
        crate, rest = words[1], words[3:]
        for i in range(len(rest) - 1, -1, -1):
            module, name = ".".join(rest[:i]), rest[i]
            if (crate, module, name) in self.owner:
                return self.owner[crate, module, name]
            if name in self.imports.get((crate, module), {}):
                return self.at(self.imports[crate, module][name])
        return None

    def named_in(self, lines, imports, home=None):
        """The definitions that these lines name, in their order."""
        found = []
        for line in lines:
            for word in WORD.findall(line):
                parts = word.strip(".").split(".")
                hit = None
                if home and (*home, parts[0]) in self.owner:
                    hit = self.owner[(*home, parts[0])]
                elif parts[0] in imports:
                    hit = self.at(".".join([imports[parts[0]], *parts[1:]]))
                if hit and hit not in found:
                    found.append(hit)
        return found

    def reached(self, starts, seen):
        """These definitions and what they name, each in front of what it names; those that were seen are left out."""
        order = []
        left = list(reversed(starts))
        while left:
            key = left.pop()
            if key in seen:
                continue
            seen.add(key)
            order.append(key)
            crate, module, _ = key
            named = self.named_in(self.lines[key][2], self.imports[crate, module], (crate, module))
            left.extend(reversed([it for it in named if it not in seen]))
        return order


def clauses(file, start):
    """The clauses of a function, each with its name."""
    text = (TOP / "crates" / file).read_text(encoding="utf-8").split("\n")
    at = next(i for i, line in enumerate(text) if line.startswith(start))
    found = []
    for line in text[at:]:
        if line.strip() == "{":
            break
        head = re.match(r"^\s*(?:ensures|requires) (\w*)", line)
        if head:
            found.append((head[1], [line]))
        elif found and not line.strip().startswith("//"):
            found[-1][1].append(line)
    return found, imports_of("\n".join(text))


def size(specs, keys):
    return sum(len(specs.lines[key][2]) for key in keys)


def table(specs, keys):
    out = ["| Definition | Where | Lines |\n|---|---|---|"]
    for key in keys:
        where, line, text = specs.lines[key]
        path = where.relative_to(TOP)
        shown = f"{path.parts[1]}/{'/'.join(path.parts[3:])}"
        out.append(f"| `{key[2]}` | [`{shown}:{line}`](../{path}#L{line}) | {len(text)} |")
    return out + [""]


def part(specs, title, keys):
    by_crate = collections.Counter()
    for key in keys:
        by_crate[key[0]] += len(specs.lines[key][2])
    parts = ", ".join(f"`{crate}` {count}" for crate, count in sorted(by_crate.items()))
    told = f"{len(keys)} definitions that were not listed before, {size(specs, keys)} lines: {parts or 'none'}.\n"
    return [f"{title}\n", told, *(table(specs, keys) if keys else [])]


def clauses_of(specs, seen, call, told):
    """The definitions that the clauses of a call name, and their part of the page: the clauses of the headline, or the others."""
    file, start, name, names = call
    found, imports = clauses(file, start)
    lines = [line for clause, text in found if (clause in names) == told for line in text]
    shown = ", ".join(f"`{clause}`" for clause, _ in found if clause and (clause in names) == told)
    keys = specs.reached(specs.named_in(lines, imports), seen)
    return keys, part(specs, f"### {name}: {shown}", keys)


def page():
    specs, seen, headline, looked, rest = Specs(), set(), [], [], []
    fills = specs.reached([("dns_rdata", "Data", "Fills")], seen)
    out = part(specs, "## `Fills`: which octets are the RDATA of which value", fills)
    for told in (True, False):
        out.append("## The clauses of the headline\n" if told else "## The other clauses of these calls\n")
        for call in CALLS:
            keys, shown = clauses_of(specs, seen, call, told)
            (headline if told else rest).extend(keys)
            out.extend(shown)
        if told:
            out.append("## The same without an exception for memory\n")
            looked, shown = clauses_of(specs, seen, LOOKED_AT, True)
            out.extend(shown)
    head = f"""# What one must read to believe the headline

Made by `tools/statement.py`; the gate compares.

The prover checks every proof. What it cannot check is whether a contract says what its reader thinks that it says. So a
reader who wants to believe the promise of README reads some clauses of four calls (`crates/dns_rdata/src/record_data.rt`,
`order.rt`) and every definition that they name, directly or through other definitions. These are all of them, each in front
of what it names. [DEFINITIONS](dev/DEFINITIONS.md) reads them aloud.

The promise has one exception: a call that may allocate may return `Memory`, at any time as far as the contract goes. `RDataRef::read`
(`view.rt`), which looks at the same octets and allocates nothing, has no exception: it returns a view exactly where they are the RDATA
of a value (`found`, `refused`), and never `Memory` (`allocates_nothing`). Its clauses are among these, too.

| | Lines |
|---|---|
| `Fills`, which says what octets are the RDATA of a value, and what it names | {size(specs, fills)} |
| the clauses of the headline, `Fills` included | {size(specs, fills) + size(specs, headline)} |
| the same, and the three clauses of `RDataRef::read` | {size(specs, fills) + size(specs, headline) + size(specs, looked)} |
| all clauses of these four calls: which error comes when, and what state is left | {size(specs, fills) + size(specs, headline) + size(specs, looked) + size(specs, rest)} |

Blank lines, comments and imports are not counted. The kinds of fields and the rows of the types, which code declares, are.
Other types that code declares and the words of the kit's standard library are not.
"""
    return "\n".join([head, *out]).rstrip() + "\n"


write_or_check(PAGE, page())
