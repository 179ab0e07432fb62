#!/usr/bin/env python3
"""Makes docs/API.md and docs/api/CRATE.md: each public item of the crates that users name, with its first sentence, the traits that
it implements, its public fields or its variants, and each call with its signature, its file and line, and whether it may allocate;
of a law each of its sentences.

    tools/api.py            writes the pages
    tools/api.py --check    compares them with what would be written; the last line is 'N as wanted, M not'

A call may allocate if its result has an error for memory (`Memory`, or `AllocError`), and what it is given holds an allocator or
memory; unless its documentation says that it allocates nothing. tests/exports.py compares the pages with the interfaces that the
compiler writes.
"""
import pathlib
import re
import sys

TOP = pathlib.Path(__file__).resolve().parent.parent
PAGE = TOP / "docs/API.md"
FOLDER = TOP / "docs/api"
USERS = ["dns_rdata", "dns_message", "dns_registry", "dns_rdata_zone", "dns_rdata_laws"]
ITEM = re.compile(r"^( *)pub (?:const |unsafe |extern \"C\" )*(struct|enum|trait|fn|const|static|type|macro) (\w+)")
IMPL = re.compile(r"^impl(?:<[^{]*?>)? (?:(?P<trait>[\w:]+)(?P<of><.*?>)? for )?(?P<lent>&?)(?:'\w+ )?(?P<type>\w+)")
HIDDEN_TRAIT = re.compile(r"^(?:pub\([a-z]+\) )?trait ")
FIELD = re.compile(r"^    pub (\w+): (.+),$")
ONE_FIELD = re.compile(r"^pub struct \w+(?:<.*?>)?\(pub (.+)\);")
VARIANT = re.compile(r"^    [A-Z]\w*(?:[,(]| \{)")
ALIAS = re.compile(r"^pub type \w+(?:<.*?>)? = (\w+)<.*>;")
# The traits that a user asks for.
ASKED = (
    "Clone Copy Debug Display Error Eq PartialEq Ord PartialOrd Hash Default Iterator IntoIterator From Into TryFrom FromStr AsRef "
    "AsMut Deref DerefSlice BinDecodable BinEncodable RecordDataDecodable RecordData FromTokens TakesOctet"
).split()

IMPLIED = {
    "Error": ["Display"],
    "DecodesFields": ["RecordDataDecodable"],
    "DecodesRow": ["RecordDataDecodable"],
    "EncodesFields": ["BinEncodable"],
    "Variant": ["RecordData"],
}

# Names that hold memory or an allocator, beside the structs and enums of the crates that have one of them inside.
HOLDERS = {"Global", "Vec", "String", "Box", "Allocator"}
# Parameters of types and traits stand for a value that may hold memory.
GENERIC = re.compile(r"\b[A-Z]\b|\bimpl \w+")


class Item:
    def __init__(self, kind, name, doc, text="", file=None, line=0):
        self.whole = doc
        # The first paragraph says it.
        self.doc = doc[: doc.index("")] if "" in doc else doc
        self.kind, self.name, self.text, self.file, self.line = kind, name, text, file, line
        self.calls, self.derived, self.fields, self.variants, self.alias, self.owner = [], [], [], [], None, ""

    def sentence(self):
        text = plain(" ".join(self.doc))
        found = re.match(r"(.*?\.)(?: [A-Z`]|$)", text)
        return (found.group(1) if found else text).replace("|", "\\|")

    def signature(self):
        """The head of a call, on one line."""
        text = re.split(r"\n *(?:ensures|requires|decreases)\b|\n *\{|;| \{|\n\n", re.sub(r"(?m)^ *//.*$", "", self.text))[0]
        text = re.sub(r"\s+", " ", text).strip()
        text = re.sub(r"^pub |\bmut (?=\w+:)", "", text)
        return re.sub(r",? ?\)", ")", text.replace("( ", "(")).replace("< ", "<").replace(", >", ">")

    def may_allocate(self, holders, fallible):
        told = " ".join(self.whole).lower()
        if "llocates nothing" in told or "takes no memory" in told or "without allocating" in told:
            return False
        # A number, a part of the message or a decoder, which a reader lends.
        if re.search(r"-> Result<(?:Restrict<(?:&|[ui]\d+)|BinDecoder)", self.signature()):
            return False
        given, _, result = self.signature().partition(" -> ")
        errors = re.sub(r"^Result<.*, (\w+)>$", r"\1", result)
        is_fallible = "AllocError" in result or "ProtoResult" in result or errors in fallible
        if "self" in given.partition("(")[2].split(",")[0]:
            given += f" {self.owner}"
        return is_fallible and bool(GENERIC.search(given) or holders & set(re.findall(r"\w+", given)))


def plain(text):
    """The text of a comment without links."""
    text = re.sub(r"\[([^\]]*)\]\([^)]*\)", r"\1", text.strip())
    return re.sub(r"\[(`[^\]]*`)\]", r"\1", text)


def parts_of(lines, i):
    """The public fields of the struct that begins in a line, each with its type and first sentence, or the variants of the enum."""
    one = ONE_FIELD.match(lines[i])
    if one:
        return [("0", one.group(1), "The only field.")], []
    fields, variants, doc = [], [], []
    if lines[i].rstrip().endswith("{"):
        for line in lines[i + 1 :]:
            if line.startswith("}"):
                break
            said, field = re.match(r"^    /// ?(.*)$", line), FIELD.match(line)
            inner = re.match(r"^        (\w+: .+),$", line)
            if said:
                doc.append(said.group(1))
            elif field:
                fields.append((field.group(1), field.group(2), Item("field", field.group(1), doc).sentence()))
            elif VARIANT.match(line):
                variants.append(line.strip().rstrip(",{ ") + (" { .. }" if line.endswith("{") else ""))
            elif inner and variants:
                name, _, rest = variants[-1].partition(" { ")
                variants[-1] = f"{name} {{ {'' if rest == '.. }' else rest[:-2] + ', '}{inner.group(1)} }}"
            if not said and not line.strip().startswith("#["):
                doc = []
    return fields, variants


def add_impl(types, file, impl):
    """Notes a trait that a type implements, by the line of its `impl`."""
    trait, owner = impl.group("trait").split("::")[-1] + (impl.group("of") or ""), impl.group("type")
    types.setdefault(f"{owner}.impls", []).append((file, trait + (" for &" if impl.group("lent") else "")))
    source = re.fullmatch(r"From<(\w+)>", trait)
    if source:
        types.setdefault(f"{source.group(1)}.impls", []).append((file, f"Into<{owner}>"))


def items_of(crate):
    """The public items of a crate, by file (its module), and the calls and traits of each type."""
    modules, types = {}, {}
    for file in sorted((TOP / f"crates/{crate}/src").glob("**/*.rt")):
        module = "::".join(file.relative_to(TOP / f"crates/{crate}/src").with_suffix("").parts)
        found, doc, owner, trait, derived = [], [], None, None, []
        lines = file.read_text(encoding="utf-8").split("\n")
        for i, line in enumerate(lines):
            said = re.match(r"^ *///? ?(.*)$", line) if line.strip().startswith("///") else None
            if said:
                doc.append(said.group(1))
                continue
            derive = re.match(r"^#\[derive\((.*)\)\]", line)
            if derive:
                derived = re.findall(r"\w+", derive.group(1))
            impl = IMPL.match(line)
            if impl:
                owner, trait = impl.group("type"), impl.group("trait")
                if trait:
                    add_impl(types, file, impl)
            if HIDDEN_TRAIT.match(line):
                owner, trait = "", ""
            if line.startswith("}"):
                owner = trait = None
            item = ITEM.match(line)
            call = re.match(r"^    fn (\w+)", line)
            if item and not line.strip().startswith("pub(crate)"):
                text = "\n".join(lines[i : i + 40]).split("\n" + item.group(1) + "{")[0]
                it = Item(item.group(2), item.group(3), doc, text, file, i + 1)
                it.owner = owner or ""
                alias = ALIAS.match(line)
                it.alias = alias.group(1) if alias else None
                if item.group(1) == "":
                    it.derived = derived
                    if it.kind in ("struct", "enum"):
                        it.fields, it.variants = parts_of(lines, i)
                    found.append(it)
                    types.setdefault(it.name, it)
                elif owner and trait is None and len(item.group(1)) == 4:
                    types.setdefault(f"{owner}.calls", []).append((file, it))
            elif call and trait is None and owner is None and found and found[-1].kind == "trait":
                text = "\n".join(lines[i : i + 40]).split(";\n")[0]
                found[-1].calls.append(Item("fn", call.group(1), doc, text, file, i + 1))
                found[-1].calls[-1].owner = "Self"
            if line.strip() and not line.strip().startswith(("#[", "//")):
                doc, derived = [], []
        modules[module] = found
    return modules, types


def exported(crate):
    """The names that the root of a crate re-exports, each with the name and the path that it has there, and its own modules."""
    text = (TOP / f"crates/{crate}/src/lib.rt").read_text(encoding="utf-8")
    names = []
    for path, group, single in re.findall(r"^pub use ([\w:]+)::(?:\{([^}]*)\}|(\w+));", text, re.M):
        for name, other in re.findall(r"(\w+)(?: as (\w+))?", group or single):
            names.append((other or name, name, path))
    names += [(name, name, crate) for name in re.findall(r"^pub mod (\w+);", text, re.M)]
    names += [(name, name, crate) for name in re.findall(r"^pub fn (\w+)", text, re.M)]
    return names


def small_modules(crate):
    """The modules that the root of a crate writes out: what each re-exports."""
    text = (TOP / f"crates/{crate}/src/lib.rt").read_text(encoding="utf-8")
    found = re.findall(r"^pub mod (\w+) \{\n    pub use [\w:]+::(?:\{([^}]*)\}|(\w+));\n\}", text, re.M)
    return {name: re.findall(r"\w+", group or single) for name, group, single in found}


def is_exported(crate, module, name):
    """Whether an item of a file can be named from outside: each file above it exports the module or the item."""
    parts = module.split("::")
    for i in range(1, len(parts)):
        text = (TOP / f"crates/{crate}/src/{'/'.join(parts[:i])}.rt").read_text(encoding="utf-8")
        part = parts[i]
        if re.search(rf"^pub mod {part};", text, re.M):
            continue
        if not re.search(rf"^pub use {part}::(?:\{{[^}}]*\b{name}\b[^}}]*\}}|{name});", text, re.M):
            return False
    return True


class Sources:
    """The public items of all crates."""

    def __init__(self):
        self.crates = {folder.name: items_of(folder.name) for folder in sorted((TOP / "crates").glob("dns_*"))}
        self.where, self.declared = {}, {}
        for modules, types in self.crates.values():
            for name, it in types.items():
                self.where.setdefault(name, it)
            for items in modules.values():
                for it in items:
                    if it.kind in ("struct", "enum"):
                        self.declared[it.name] = self.declared.get(it.name, 0) + 1
        bodies = {}
        for file in sorted((TOP / "crates").glob("dns_*/src/**/*.rt")):
            text = re.sub(r"(?m)^ *//.*$", "", file.read_text(encoding="utf-8"))
            for name, body in re.findall(r"(?ms)^(?:pub(?:\([a-z]+\))? )?(?:struct|enum) (\w+)(.*?(?:^\}|\);|;$))", text):
                bodies[name] = bodies.get(name, "") + body
            for name, body in re.findall(r"(?m)^pub type (\w+)(?:<.*?>)? = (.*);$", text):
                bodies[name] = bodies.get(name, "") + body
        self.fallible = {name for name, body in bodies.items() if re.search(r"\bMemory\b", body)}
        self.holders = HOLDERS | {"Self"}
        while True:
            more = {name for name, body in bodies.items() if name not in self.holders and self.holders & set(re.findall(r"\w+", body))}
            if not more:
                break
            self.holders |= more

    def resolve(self, crate, name, path):
        """The item that a root exports: that of the crate that the path begins with, or what that crate exports by this name."""
        head = path.split("::")[0]
        at = head if head in self.crates else crate
        it = self.crates[at][1].get(name)
        if isinstance(it, Item):
            return it
        for other, original, further in exported(at) if at != crate else []:
            if other == name:
                return self.resolve(at, original, further)
        return self.where.get(name)

    def owned(self, it, what):
        """The calls or the traits of a type. Of two types with one name each has what its own file says."""
        every = [pair for _, types in self.crates.values() for pair in types.get(f"{it.name}.{what}", [])]
        found = [found for file, found in every if self.declared.get(it.name, 1) == 1 or file == it.file]
        if it.alias and it.alias in self.where:
            found += self.owned(self.where[it.alias], what)
        return found

    def traits_of(self, it):
        found = {*it.derived, *self.owned(it, "impls")}
        # By the `impl`s for all types with another trait.
        for trait, others in IMPLIED.items():
            if trait in found:
                found |= set(others)
        if {"DecodesFields", "EncodesFields"} <= found:
            found.add("BinDecodable")
        return [name for asked in ASKED for name in sorted(found) if re.match(rf"{asked}\b", name)]


def link(it, shown):
    path = it.file.relative_to(TOP)
    return f"[{shown}](../../{path}#L{it.line})"


def rows_of(sources, calls):
    out = ["| Call | What it does | May allocate |", "|---|---|---|"]
    for it in calls:
        told = "yes" if it.may_allocate(sources.holders, sources.fallible) else "no"
        shown = "`" + it.signature().replace("|", "\\|") + "`"
        out.append(f"| {link(it, shown)} | {it.sentence()} | {told} |")
    return [*out, ""]


def law(it, name, level):
    """A law: its sentences, and those of its clauses."""
    out = [f"{'#' * level} `{name}`", "", f"{link(it, f'`fn {it.name}()`')} {plain(' '.join(it.doc))}", ""]
    said = []
    for line in it.text.split("\n")[1:]:
        comment, clause = re.match(r"^ *// (.*)$", line), re.match(r"^ *ensures (\w*)", line)
        if comment:
            said.append(comment.group(1))
        elif clause:
            if said:
                out.append(f"- {f'`{clause.group(1)}`: ' if clause.group(1) else ''}{plain(' '.join(said))}")
            elif clause.group(1):
                out.append(f"- `{clause.group(1)}`")
            said = []
    return [*out, ""]


def section(sources, it, path, level):
    """A type, a trait or a constant."""
    out = [f"{'#' * level} `{it.name}`", ""]
    out += [f"`use {path}::{it.name};` {link(it, 'source')}. {it.sentence()}", ""]
    traits = sources.traits_of(it)
    if traits:
        named = ", ".join(f"`{name}`" for name in traits).replace("`From<T>`", "`From<T>` of each record `T`")
        out += [f"Implements: {named}.", ""]
    if it.variants:
        out += [f"Variants: {', '.join(f'`{name}`' for name in it.variants)}.", ""]
    if it.fields:
        out += ["| Field | Type | What it is |", "|---|---|---|"]
        out += [f"| `{name}` | `{kind}` | {said} |" for name, kind, said in it.fields] + [""]
    calls = it.calls if it.kind == "trait" else sources.owned(it, "calls")
    return out + (rows_of(sources, calls) if calls else [])


def page(sources, crate):
    """The page of a crate, and the names on it with their first sentences."""
    out, index = [], []
    names = [(name, sources.resolve(crate, original, path), path) for name, original, path in exported(crate)]
    laws = [(name, it) for name, it, _ in names if it and it.kind == "fn" and name.endswith(("_hold", "_holds"))]
    functions = [it for name, it, _ in names if it and it.kind == "fn" and (name, it) not in laws]
    for name, it, _ in sorted(names, key=lambda each: each[0].lower()):
        if it and it.kind != "fn":
            out += section(sources, it, crate, 2)
            index.append((name, it.sentence()))
    if functions:
        out += ["## Functions", "", *rows_of(sources, functions)]
        index += [(it.name, it.sentence()) for it in functions]
    for name, it in laws:
        out += law(it, name, 2)
        index.append((name, it.sentence()))
    shown = {name for name, _, _ in names}
    small = small_modules(crate)
    for name, path in [(name, path) for name, _, path in names] + [(name, "") for name in small]:
        within = path.split("::")[0]
        below = [
            it
            for at, items in sources.crates.get(within, ({}, {}))[0].items()
            if at == name or at.startswith(name + "::")
            for it in items
            if it.name not in shown and is_exported(within, at, it.name)
        ]
        if name in small:
            below = [sources.where[it] for it in small[name] if it in sources.where and it not in shown]
        if below and name not in sources.where:
            out += [f"## Module `{name}`", "", f"`use {crate}::{name};`", ""]
            module_laws = [it for it in below if it.kind == "fn" and it.name.endswith(("_hold", "_holds"))]
            calls = [it for it in below if it.kind == "fn" and it not in module_laws]
            out += rows_of(sources, calls) if calls else []
            for it in module_laws:
                out += law(it, it.name, 3)
            for it in below:
                if it.kind != "fn":
                    out += section(sources, it, f"{crate}::{name}", 3)
            index += [(f"{name}::{it.name}", it.sentence()) for it in below]
    head = [f"# The public interface of `{crate}`", "", "Made by `tools/api.py` from the sources ([API](../API.md) says how to read it).", ""]
    return re.sub(r"\n{3,}", "\n\n", "\n".join([*head, *out])).rstrip() + "\n", index


def pages():
    sources = Sources()
    out = [
        "# The public interface",
        "",
        "Made by `tools/api.py` from the sources; the gate compares, and compares the pages of the crates with the interfaces that the",
        "compiler has written (`tests/exports.py`). A page of a crate has each type with the traits that it implements, its public fields",
        "or its variants, and its calls. The signature of a call leads to its source, where its contract is. The last column of its tables says whether",
        "a call may allocate: `no` is a call that returns no error for memory; that it does not allocate is proved where none of its arguments has an allocator, and tested for those of the others that `tests/calls.txt` names.",
        "[GUARANTEES](GUARANTEES.md) has the contracts in words, [TYPES](TYPES.md) the record types.",
        "",
    ]
    made = {}
    for crate in USERS:
        made[FOLDER / f"{crate}.md"], index = page(sources, crate)
        out += [f"## [{crate}](api/{crate}.md)", "", "| Name | What it is |", "|---|---|"]
        out += [f"| `{name}` | {said} |" for name, said in index] + [""]
    made[PAGE] = "\n".join(out).rstrip() + "\n"
    return made


def main():
    made = pages()
    if "--check" not in sys.argv:
        FOLDER.mkdir(exist_ok=True)
        for path, text in made.items():
            path.write_text(text, encoding="utf-8")
        return
    good = 0
    for path, text in made.items():
        same = path.exists() and path.read_text(encoding="utf-8") == text
        good += same
        if not same:
            print(f"{path.relative_to(TOP)} is not what tools/api.py makes")
    print(f"{good} as wanted, {len(made) - good} not")


if __name__ == "__main__":
    main()
