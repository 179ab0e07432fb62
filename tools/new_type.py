#!/usr/bin/env python3
"""Writes a type of numbers and a name into all files that have lines of it, or holds the standing types to what it would write.

    tools/new_type.py LINE      writes the type that the line describes, and its line into tools/types.txt
    tools/new_type.py --dry LINE    prints the lines and the files, and writes nothing
    tools/new_type.py --check   compares the lines of each type in tools/types.txt; the last line is 'N as wanted, M not'

    LINE: NAME NUMBER (RFC): MEANING [= MEANING OF THE STRUCT]; FIELD KIND [MODE]: SENTENCE [= WORDS BESIDE THE PICTURE]; ..; example TEXT

such as

    'KX 36 (RFC 2230, 3): a key exchanger = a host that exchanges keys for the owner; preference u16: Lower values are tried first;
     exchanger name lowercased: The host; example 10 kx.example.com.'

A KIND is u8, u16, u32 or name; the name is the last field, and `compressed`, `lowercased` or `kept` says how it is emitted
(tools/type_lines.py). It writes all or nothing: if a file or an anchor is missing, it says which, and no file has changed.

PLACES is the one table of what is edited: each place has a name, a path, an anchor (a pattern), a function of tools/type_lines.py, and
which types have lines there. If a file moves or a list is named otherwise, its line in the table is what changes. The classes in
tools/type_places.py say how lines are found.
"""
import pathlib
import re
import subprocess
import sys

import type_lines as lines
from type_lines import Wrong, described
from type_places import Blocks, Data, Entries, Kept, Modules, NewFile, Phrase, Prose, Ranked, RankedWords, Shifted, Words
from type_places import every, in_a_mode, one_name, several_numbers, with_numbers

TOP = pathlib.Path(__file__).resolve().parent.parent
TYPES = TOP / "tools/types.txt"

# Where what is often moved is.
BASE, VALUE, ROWS, TYPE = "crates/dns_rdata_base", "crates/dns_rdata", "crates/dns_rows", "crates/dns_types"
ZONE_ROWS, ZONE = "crates/dns_zone_rows", "crates/dns_rdata_zone"
REPLAY, ZONE_REPLAY, BENCH = "tests/programs/rdata_replay", "tests/programs/rdata_replay", "tests/programs/rdata_bench"

ARM = r"^            RData::(\w+)\(x\) => "
PLACES = [
    # dns_types: number and name
    Entries("type", f"{TYPE}/src/record_type.rt", r"^    ([A-Z][A-Z0-9]*),$", lines.type_variant, types=every, order="number", lead=r"^    ///", after=r"^pub enum RecordType"),
    Words("type-list", f"{TYPE}/src/record_type.rt", r"^            ((?:\(\w+ \d+\)\s+)+)\)$", lambda k: f"({k.name} {k.number})", types=every, order="number", between=" ", turn="", named=r"^\((\w+)", width=96),
    Shifted("type-count", f"{TYPE}/src/record_type.rt", r"(const NAMED: \[RecordType; )(\d+)(\])", None, types=every),
    Words("type-use", f"{TYPE}/specs/RecordTypes.antt", r"^use Rattle\.dns_types\.specs\.declared\.record_type\.RecordType\.TheVariants\.\{(.*)\}$", lambda k: k.name, types=every, order="number"),
    Entries("type-entry", f"{TYPE}/specs/RecordTypes.antt", r"^type_entry (\w+) = ", lines.type_entry, types=every, order="number"),
    Words("type-names", f"{TYPE}/specs/RecordTypes.antt", r"^named_types = ((?:.*\n)(?:    ∷ .*\n)*)", lambda k: k.name, types=every, order="number", between=" ∷ ", turn="", begin="∷ ", width=120),
    # dns_rows: the row
    Entries("row", f"{ROWS}/src/row.rt", r"^pub static (\w+): \[Part; \d+\] = ", lines.row_static, types=with_numbers, order="name", lead="^///", gap=1),
    Entries("row-of", f"{ROWS}/src/row.rt", r"^        RecordType::(\w+) => ", lines.row_arm, order="name"),
    Entries("table", f"{ROWS}/specs/Table.antt", r"^table types\.(\w+) = ", lines.table_entry, types=every, order="name"),
    Entries("written", f"{ROWS}/specs/Written.antt", r"^  pub (\w+) : rows\.\w+ ≡ ", lines.written_row, types=with_numbers, order="name", lead="^  --"),
    # dns_rdata_base: the record
    Words("facts-use", f"{BASE}/specs/NameRecords.antt", r"^use Rattle\.dns_rdata_base\.specs\.\{(declared\.(?!name)\w+\.\w+\.\w+, .*)\}$", lambda k: f"declared.{k.lower}.{k.name}.{k.name}", types=with_numbers, after="."),
    Words("facts-use-name", f"{BASE}/specs/NameRecords.antt", r"^use Rattle\.dns_rdata_base\.specs\.\{(declared\.name\.\w+\.\w+, .*)\}$", lambda k: f"declared.name.{k.name}.{k.name}", types=one_name, after="."),
    Blocks("facts", f"{BASE}/specs/NameRecords.antt", None, lines.facts),
    Modules("module", f"{BASE}/src/lib.rt", r"^pub mod (\w+);$", lambda k: f"pub mod {k.lower};\n", types=with_numbers, order="module"),
    Modules("module-use", f"{BASE}/src/lib.rt", r"^pub use (\w+)::", lambda k: f"pub use {k.lower}::{k.name};\n", types=with_numbers, order="module"),
    Words("module-use-name", f"{BASE}/src/lib.rt", r"^pub use name::\{(.*)\};$", lambda k: k.name, types=one_name, order="ascii"),
    NewFile("record", BASE + "/src/{kind.lower}.rt", None, lines.record_file, types=with_numbers),
    Words("record-use-name", f"{BASE}/src/name.rt", r"^ghost use Rattle\.dns_rdata_base\.specs\.NameRecords\.\{(.*)\};$", lambda k: [f"{k.lower}_fields", f"{k.lower}_facts"], types=one_name, after="."),
    Blocks("record-name", f"{BASE}/src/name.rt", None, lines.record_blocks, types=one_name),
    NewFile("proof-emits", BASE + "/proofs/{kind.lower}/{kind.name}EncodesFields/emit_fields/Answers.antt", None, lines.proof_emits, types=several_numbers),
    NewFile("proof-numbers", BASE + "/proofs/{kind.lower}/{kind.name}/emit_numbers/Answers.antt", None, lines.proof_numbers, types=several_numbers),
    # dns_rdata: the value
    Words("value-reexport", f"{VALUE}/src/lib.rt", r"^pub use dns_rdata_base::\{\n((?:    .*\n)+)\};", lambda k: [k.name] if k.is_name else [k.name, k.lower], order="ascii", begin="", named=r"(.*)"),
    Words("value-reexport-name", f"{VALUE}/src/lib.rt", r"^pub mod name \{\n    pub use dns_rdata_base::\{(.*)\};", lambda k: k.name, types=one_name, order="ascii"),
    Words("value-use", f"{VALUE}/src/record_data.rt", r"^use crate::\{\n((?:    .*\n)+)\};", lambda k: k.name, types=every, order="ascii"),
    Words("value-use-traits", f"{VALUE}/src/traits.rt", r"^use crate::\{\n((?:    .*\n)+)\};", lambda k: k.name, types=every, order="ascii"),
    Words("value-use-tokens", f"{VALUE}/src/tokens.rt", r"^use crate::\{\n((?:    .*\n)+)\};", lambda k: k.name, order="ascii"),
    Entries("value", f"{VALUE}/src/record_data.rt", r"^    (\w+)\(\1\),$", lines.value_variant, types=every, lead="^    ///"),
    RankedWords("value-ranks", f"{VALUE}/src/each.rt", r"^            (\$arguments (?:\(\w+ \d+\)\s+)+)\)$", lambda k: f"({k.name} {k.rank})", types=every, between=" ", turn="", named=r"^\((\w+)", width=96),
    Shifted("value-ranks-after", f"{VALUE}/src/order.rt", r"(RData::(?:Unknown \{ \.\. \}|Update0\(_\)|ZERO) => )(\d+)(,)", None, types=every),
    Entries("value-variant", f"{VALUE}/src/traits.rt", r"^impl Variant for (\w+) \{", lines.variant_impl, types=every, gap=1),
    Entries("value-target", f"{VALUE}/src/record_data.rt", ARM + r"Some\(&x\.", lines.target_arm),
    Prose("value-target-said", f"{VALUE}/src/record_data.rt", r"that of ((?:\w+, )+\w+ and \w+), the exchange of", None, types=one_name, mark="    /// ", width=118),
    Phrase("value-target-field", f"{VALUE}/src/record_data.rt", r"the target of SRV", lambda k: f"the {k.fields[-1].words} of {k.name}", types=with_numbers, mark="    /// ", width=118),
    Entries("value-emit", f"{VALUE}/src/record_data.rt", ARM + r"return emit_whole_record", lines.emit_other_arm, types=in_a_mode),
    Words("value-equal", f"{VALUE}/src/record_data.rt", r"^            \[([A-Z0-9 ]*\bMX\b[A-Z0-9 ]*)\],$", lambda k: k.name, between=" "),
    Entries("value-step", f"{VALUE}/src/canonical.rt", ARM + r"of_value\(", lines.step_arm),
    Entries("value-tokens", f"{VALUE}/src/tokens.rt", r"^            RecordType::(\w+) => wrap\(", lines.tokens_arm),
    Entries("fields-of", f"{VALUE}/specs/Data.antt", r"^fields_of \(rdata\.(\w+) x\) = ", lines.fields_of, types=every),
    Entries("type-of", f"{VALUE}/specs/Data.antt", r"^type_of \(rdata\.(\w+) x\) = ", lines.type_of, types=every),
    Entries("mode-for", f"{VALUE}/specs/Data.antt", r"^mode_for own \(rdata\.(\w+) x\) = ", lines.mode_for),
    Ranked("rank", f"{VALUE}/specs/Order.antt", r"^rank \(rdata\.(\w+) x\) = ", lines.rank, types=every),
    Entries("keys", f"{VALUE}/specs/Keys.antt", r"^    (?:fields|options) .*\(?elim \[ rdata\.(\w+)\b", lines.variant_key, order="last"),
    Entries("is-printed", f"{VALUE}/specs/DataTokens.antt", r"^IsPrinted \(rdata\.(\w+) x\) = ", lines.is_printed),
    Entries("fed", f"{VALUE}/specs/Hashing.antt", r"^record_fed \(rdata\.(\w+) x\) = ", lines.record_fed, types=every),
    Entries("fed-same", f"{VALUE}/specs/Hashing.antt", r"^record_fed_same \(rdata\.(\w+) x\)", lines.fed_same),
    Entries("same-octets", f"{VALUE}/specs/Ties.antt", r"^same_octets \(rdata\.(\w+) x\)", lines.same_octets),
    Entries("target-of", f"{VALUE}/specs/Laws.antt", r"^target_of \(rdata\.(\w+) x\) = ", lines.target_of),
    Entries("read-goals", f"{VALUE}/proofs/record_data/RData/read/Answers.antt", r"^pub returns-in-(\w+) : ", lines.read_goals, open=True, gap=1),
    Entries("tokens-goal", f"{VALUE}/proofs/record_data/RData/read_tokens/Answers.antt", r"^pub returns-in-(\w+) : ", lines.tokens_goal, open=True, gap=1),
    Words("tokens-use", f"{VALUE}/proofs/DataTokens.antt", r"^use Rattle\.dns_rdata_base\.specs\.\{(NameRecords\.name_shape, .*)\}$", lambda k: f"NameRecords.{k.lower}_facts", types=with_numbers, after=r"^NameRecords\."),
    Words("tokens-types", f"{VALUE}/proofs/DataTokens.antt", r"^token_types =\n((?:    .*\n)+)", lambda k: f"types.{k.name}", between=" ∷ ", turn="", begin="∷ ", width=160, named=r"^types\.(\w+)$"),
    Entries("tokens-back", f"{VALUE}/proofs/DataTokens.antt", r"^back_of origin \(rdata\.(\w+) x\)", lines.back_of),
    Words("reads-types", f"{VALUE}/proofs/DataReads.antt", r"^known_types =\n((?:    .*\n)+)", lambda k: f"types.{k.name}", types=every, between=" ∷ ", turn="", begin="∷ ", width=160, named=r"^types\.(\w+)$"),
    Entries("values", f"{VALUE}/proofs/Values.antt", r"^value_for types\.(\w+) vs = ", lines.value_for),
    Entries("ranks", f"{VALUE}/proofs/Ranks.antt", r"^by_rank \(rdata\.(\w+) x\)", lines.by_rank, types=every),
    # zone text
    Entries("zone-row", f"{ZONE_ROWS}/src/table.rt", r"^static (\w+): \[ZoneField; \d+\] = ", lines.zone_static, order="name", lead="^//", gap=1),
    Entries("zone-row-of", f"{ZONE_ROWS}/src/table.rt", r"^            RecordType::(\w+) => \$fields\(", lines.zone_arm, order="name"),
    Entries("zone-table", f"{ZONE_ROWS}/specs/RowTable.antt", r"^zone_row_of types\.(\w+) = ", lines.zone_row, order="name", lead="^--"),
    Entries("zone-texts", f"{ZONE_ROWS}/specs/RowTexts.antt", r"^texts_of types\.(\w+) = ", lines.zone_row_texts, order="name"),
    Entries("zone-print", f"{ZONE}/src/zone_text.rt", r"^            RData::(\w+)(?:\(| \{)", lines.zone_print),
    Entries("zone-names", f"{ZONE}/src/reading.rt", r"^        \| RecordType::(\w+)$", lines.has_names_arm),
    Entries("zone-text", f"{ZONE}/specs/ZoneTexts.antt", r"^zone_text \(rdata\.(\w+) x\) = ", lines.zone_text),
    Entries("zone-fit", f"{ZONE}/specs/Readable.antt", r"^FieldsFit \(rdata\.(\w+) x\) =", lines.fields_fit),
    Entries("zone-filled", f"{ZONE}/proofs/Filled.antt", r"^fields_fit m p \(rdata\.(\w+) x\)", lines.filled),
    Entries("zone-gives", f"{ZONE}/proofs/TextsGive.antt", r"^texts_are origin \(rdata\.(\w+) x\)", lines.texts_are),
    # C, Rust and Python
    Words("c-type", "c/include/dns_rdata.h", r"^/\* The types that have a name\..*\nenum \{\n((?:    DNS_RDATA_TYPE_.*\n)+)\};", lambda k: f"DNS_RDATA_TYPE_{k.name} = {k.number}", types=every, order="number", named=r"^DNS_RDATA_TYPE_(\w+) =", width=118),
    Prose("c-types", "c/include/dns_rdata.h", r"Types with a form of their own: (.*?) and 0\.", None, types=every, mark=" * ", width=132),
    Entries("rust-type", "rust/dns-rdata/src/record_type.rs", r'^    (\w+) \d+ "', lines.rust_constant, types=every, order="number"),
    Entries("python-type", "python/src/dns_rdata/_rdtype.py", r"^    ([A-Z]\w*) = \d+$", lines.python_constant, types=every, order="number"),
    # tests: the reference model, and data
    Entries("model", "tests/plain_table.py", r'^    \(\d+, "(\w+)", ', lines.model_entry, order="number"),
    Entries("model-names", "tests/plain_table.py", r'^    "(\w+)": \[.*"name"', lines.model_steps, types=with_numbers, after=r"^NAMED = \{"),
    Words("model-names-name", "tests/plain_table.py", r'^    \*\*dict\.fromkeys\(\(("NS", .*)\), \["name"\]\),', lambda k: f'"{k.name}"', types=one_name, after="."),
    Entries("model-words", "tests/plain_words.py", r'^    "(\w+)": ', lines.model_words, types=with_numbers, after=r"^RECORDS = \{"),
    Words("model-words-name", "tests/plain_words.py", r'^    \*\*dict\.fromkeys\(\[("ANAME", .*)\], one_name\),', lambda k: f'"{k.name}"', types=one_name, after="."),
    Entries("damaged", "tests/damaged.py", r'^    "(\w+)": \[', lines.around_name, types=with_numbers, after=r"^AROUND_NAMES = \{", is_exact=False),
    Words("damaged-name", "tests/damaged.py", r'^    \*\*dict\.fromkeys\(\[("NS", .*)\], \[\(b"", b""\)\]\),', lambda k: f'"{k.name}"', types=one_name, after="."),
    Kept("golden-kept", f"{REPLAY}/data/real.tsv", None, None),
    Data("golden", f"{REPLAY}/data/rows.tsv", None, lines.golden_lines, counted=f"{REPLAY}/stdout"),
    Data("golden-zone", f"{ZONE_REPLAY}/data/zone.tsv", None, lines.zone_golden_lines, counted=f"{ZONE_REPLAY}/stdout"),
    Data("allocations", "tests/requests.txt", None, lines.request_lines),
    Entries("sample", f"{BENCH}/data/samples.txt", r"^(\w+) \d+ \d+ ", lines.sample, is_exact=False),
    Data("sample-text", f"{BENCH}/data/texts.txt", None, lambda k: [lines.text_sample(k).rstrip()]),
    Data("sample-zone", f"{BENCH}/data/zone_texts.txt", None, lambda k: [lines.text_sample(k).rstrip()]),
    # pages
    Prose("readme", "README.md", r"^Types: (.*?) and ZERO", None, types=every),
    Entries("page-row", "docs/TYPES.md", r"^\| \[(\w+)\]\(#", lines.page_row, order="name"),
    Entries("page", "docs/TYPES.md", r"^## (\w+)", lines.page_section, types=with_numbers, order="name", open=True, gap=1),
    Prose("page-name", "docs/TYPES.md", r"^((?:\w+, )+\w+ and \w+): `CNAME\(Name\)`", None, types=one_name),
    Prose("page-texts", "docs/TEXTS.md", r"^\| (MX, SRV\b.*?) \| the fields, a blank between \|", None, types=with_numbers, at_end=True),
    Prose("page-texts-name", "docs/TEXTS.md", r"^\| ([^|\n]*\bCNAME\b[^|\n]*) \| the name \|", None, types=one_name),
    Prose("page-tokens", "docs/TEXTS.md", r"^Records of numbers and names \((.*?)\) have a token", None),
    Prose("page-crates", "docs/dev/ARCHITECTURE.md", r"^\| `dns_rdata_base` \| (.*) \|$", None),
    Prose("page-back", "docs/GUARANTEES.md", r"reads back as the same value for (.*?) and SOA", None, at_end=True),
    Phrase("page-target", "docs/GUIDE.md", r"of SRV, SVCB and HTTPS the target", lambda k: f"of {k.name} the {k.fields[-1].words}", types=with_numbers),
    Prose("page-target-name", "docs/GUIDE.md", r"returns the name that a record points to: of (.*?) the name itself", None, types=one_name),
]


# ---- orders


def orders_of(kind):
    """By what the lines of types are ordered: rank of the variant, number, name. A new variant is before the first whose name is greater."""
    ranked = re.findall(r"\((\w+) \d+\)", re.search(PLACE["value-ranks"].anchor, read(PLACE["value-ranks"].path), re.M)[1])
    numbered = dict(re.findall(r"\((\w+) (\d+)\)", re.search(PLACE["type-list"].anchor, read(PLACE["type-list"].path), re.M)[1]))
    ranks = {name: index for index, name in enumerate(ranked)}
    if kind.name not in ranks:
        ranks[kind.name] = next((ranks[name] for name in ranked if name > kind.name), len(ranked)) - 0.5
    kind.rank = int(ranks[kind.name] + 0.5)
    numbers = {name: int(number) for name, number in numbered.items()} | {kind.name: kind.number}
    return {
        "rank": lambda name: ranks.get(name, 10**6),
        "last": lambda name: -ranks.get(name, 10**6),
        "number": lambda name: numbers.get(name, 10**6),
        "name": lambda name: name,
        "module": lambda name: name,
        "ascii": lambda name: name,
    }


# ---- what is done


PLACE = {place.name: place for place in PLACES}


# Texts of files that --check writes in memory alone.
trial_texts = {}


def read(path):
    if path in trial_texts:
        return trial_texts[path]
    file = TOP / path
    return file.read_text(encoding="utf-8") if file.is_file() else None


def described_types():
    for line in TYPES.read_text(encoding="utf-8").splitlines():
        if line.strip() and not line.startswith("#"):
            yield described(line)


def has_number(kind):
    """Whether `RecordType` has the type already, as it has some that have no row."""
    return re.search(rf"\({kind.name} {kind.number}\)", read(PLACE["type-list"].path)) is not None


def written(kind):
    """The files with the type: path, old and new text, and what was written for each place."""
    texts, parts = {}, []
    orders = orders_of(kind)
    named = {"type", "type-list", "type-count", "type-use", "type-entry", "type-names", "c-type", "rust-type", "python-type"} if has_number(kind) else set()
    for place in PLACES:
        if not place.types(kind) or place.name in named:
            continue
        path = place.path_of(kind)
        before = texts[path][1] if path in texts else read(path)
        if before is None and not isinstance(place, NewFile):
            raise Wrong(f"{path} is missing, in which tools/new_type.py (`{place.name}`) writes")
        after = place.write(before, kind, orders)
        texts.setdefault(path, [before, None])[1] = after
        parts.append((place, path, before, after))
        if isinstance(place, Data) and place.counted:
            more = after.count("\n") - before.count("\n")
            count(texts, place.counted, pathlib.Path(place.path).name, more)
    # A type without a row is one of any octets in the reference model.
    model = texts[PLACE["model"].path]
    model[1] = re.sub(rf"(?<=[( ]){kind.name}=\d+(, | ?(?=\n))", "", model[1])
    return texts, parts


def count(texts, path, name, more):
    """The stored output of golden tests says how many lines were as wanted."""
    before = texts[path][1] if path in texts else read(path)
    after, found = re.subn(rf"(?m)^{re.escape(name)}: (\d+) as wanted$", lambda said: f"{name}: {int(said[1]) + more} as wanted", before or "")
    if not found:
        raise Wrong(f"{path}: the number of lines of {name} is missing")
    texts.setdefault(path, [before, None])[1] = after


def new_lines(before, after):
    """How many lines are new or changed."""
    old = {}
    for row in (before or "").split("\n"):
        old[row] = old.get(row, 0) + 1
    more = 0
    for row in after.split("\n"):
        old[row] = old.get(row, 0) - 1
        more += old[row] < 0
    return more


def write(line, is_dry):
    kind = described(line)
    if not kind.is_straight:
        raise Wrong(f"{kind.name}: a new type has fields")
    if any(other.name == kind.name or other.number == kind.number for other in described_types()):
        raise Wrong(f"{kind.name} {kind.number}: tools/types.txt has a type of this name or number")
    texts, parts = written(kind)
    texts["tools/types.txt"] = [read("tools/types.txt"), read("tools/types.txt").rstrip("\n") + "\n" + line.strip() + "\n"]
    if is_dry:
        for place, path, before, after in parts:
            print(f"---- {place.name}: {path}")
            print("\n".join(made(place, kind)))
        return
    for path, (before, after) in texts.items():
        file = TOP / path
        file.parent.mkdir(parents=True, exist_ok=True)
        file.write_text(after, encoding="utf-8")
    for script in ("tools/statement.py", "tools/api.py", "tools/counts.py"):
        if subprocess.run([sys.executable, str(TOP / script)], stdout=subprocess.DEVNULL).returncode:
            print(f"{script} failed: the pages that it makes are not of these sources", file=sys.stderr)
    total = 0
    for path, (before, after) in texts.items():
        more = new_lines(before, after)
        total += more
        print(f"{more:4} {'new' if before is None else 'in'} {path}")
    print(f"{total} lines in {len(texts)} files, and docs/STATEMENT.md, docs/API.md, docs/api and the counts in pages")
    if re.search(rf"(?m)^[^\t]*\t{kind.name}\t", read("tests/peers/octets.tsv")):
        print(f"tests/peers/octets.tsv has octets of {kind.name}, which this library treats otherwise now: see tests/peers/README.md")


def made(place, kind):
    if isinstance(place, Kept):
        return ["runs of this type's number, if there are any"]
    if place.render is None:
        return [kind.name]
    rendered = place.render(kind)
    return [rendered.rstrip("\n")] if isinstance(rendered, str) else [str(row).rstrip("\n") for row in rendered]


def faults(kind):
    """What is not as wanted of a type: each place, and what is wrong there."""
    orders_of(kind)
    for place in PLACES:
        if not place.types(kind) or place.name in kind.own:
            continue
        text = read(place.path_of(kind))
        try:
            if text is None and not isinstance(place, NewFile):
                raise Wrong(f"{place.path} is missing")
            wrong = place.check(text, kind)
        except Wrong as error:
            wrong = str(error)
        yield f"{kind.name}, `{place.name}`: {place.path_of(kind)} {wrong}" if wrong else None


# Types that are written in memory, one after the other, so that a lost anchor shows before somebody needs it.
TRIALS = [
    "AAB 65281 (RFC 1, 1): a trial; host name kept: The host; example a.example.",
    "QQ 65282 (RFC 1, 2): a trial; count u8: A count; host name lowercased: The host; example 1 b.example.",
    "ZZZ 65283 (RFC 1, 3): a trial; serial u32: A number; count u16: A count; host name compressed: The host; example 1 2 c.example.",
]


def tried():
    """Writes each trial in memory, and looks whether all types are as wanted then."""
    standing = list(described_types())
    for line in TRIALS:
        kind = described(line)
        try:
            texts, _ = written(kind)
        except Wrong as error:
            yield str(error)
            continue
        trial_texts.update({path: after for path, (_, after) in texts.items()})
        standing.append(kind)
        yield next((f"{kind.name} is written, and then: {wrong}" for other in standing for wrong in faults(other) if wrong), None)


def check():
    found = [wrong for kind in described_types() for wrong in faults(kind)] + list(tried())
    for wrong in filter(None, found):
        print(f"not as wanted: {wrong}")
    bad = len(list(filter(None, found)))
    print(f"{len(found) - bad} as wanted, {bad} not")
    return bad != 0


def main():
    words = sys.argv[1:]
    if not words or words[0] in ("--help", "-h"):
        print(__doc__.strip())
        return 0
    is_dry = words[0] == "--dry"
    try:
        if words == ["--check"]:
            return check()
        write(" ".join(" ".join(words[is_dry:]).split()), is_dry)
    except Wrong as error:
        print(f"nothing is written: {error}", file=sys.stderr)
        return 1
    return 0


if __name__ == "__main__":
    sys.exit(main())
