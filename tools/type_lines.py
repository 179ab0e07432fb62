"""The lines of a type of numbers and a name, for tools/new_type.py.

`Type` is what a description says (tools/types.txt). Each function below it gives the lines that one place of the repository has for a
type; which place, tools/new_type.py says. Two forms are told apart: a record that is one name is a tuple struct in `name.rt` and has
the row `NAME`; one with numbers before its name has a file and a row of its own.
"""
import re
import textwrap

MODES = {"compressed": "StandardRecord", "lowercased": "Canonical", "kept": "Other"}
BITS = {"u8": 8, "u16": 16, "u32": 32}
WORDS = "no one two three four five six seven eight nine ten".split()


class Wrong(Exception):
    """What is wrong with a description, or what is missing in a file."""


class Field:
    def __init__(self, name, kind, text, beside):
        self.name, self.kind, self.text, self.beside = name, kind, text, beside

    is_number = property(lambda self: self.kind in BITS)
    bits = property(lambda self: BITS[self.kind])
    octets = property(lambda self: self.bits // 8)
    # The kind of the field in a row of the code, and in one of the definitions.
    part = property(lambda self: f"Number({self.octets})" if self.is_number else "Name")
    kind_of = property(lambda self: f"Number {self.octets}" if self.is_number else "Name")
    words = property(lambda self: self.name.replace("_", " "))
    # The call that takes or appends the number is named by its size.
    size = property(lambda self: {8: "one", 16: "two", 32: "four"}[self.bits])


class Type:
    """A type of records, as its line describes it."""

    def __init__(self, name, number, rfc, meaning, record_meaning, fields, mode, example, crate, own):
        self.name, self.number, self.rfc, self.meaning, self.record_meaning = name, number, rfc, meaning, record_meaning
        self.fields, self.mode, self.example, self.crate, self.own = fields, mode, example, crate, own
        self.lower = name.lower()

    is_straight = property(lambda self: self.fields is not None)
    is_name = property(lambda self: self.is_straight and len(self.fields) == 1)
    numbers = property(lambda self: self.fields[:-1])
    # The file of the record in its crate.
    module = property(lambda self: "name" if self.is_name else self.lower)
    row = property(lambda self: "NAME" if self.is_name else self.name)
    # How code and definitions name the field that is the name.
    target = property(lambda self: "0" if self.is_name else self.fields[-1].name)
    rfc_long = property(lambda self: re.sub(r"^(RFC \d+), (?=\d)", r"\1, section ", self.rfc))
    kinds = property(lambda self: " ∷ ".join([field.kind_of for field in self.fields] + ["[]"]))

    def octets_of(self, text):
        """The octets of a text of the type: numbers, and a fully qualified name of letters, digits, hyphens and dots."""
        words = text.split()
        fit = all(re.fullmatch(r"\d+", word) and int(word) < 2**field.bits for word, field in zip(words, self.numbers))
        if len(words) != len(self.fields) or not fit or not re.fullmatch(r"(?:[a-z0-9_-]{1,63}\.)+|\.", words[-1], re.I):
            raise Wrong(f"the example `{text}` is not the fields of {self.name}, numbers and a name with a dot at its end")
        octets = b"".join(int(word).to_bytes(field.octets, "big") for word, field in zip(words, self.numbers))
        labels = [label.encode() for label in words[-1].split(".") if label]
        return octets + b"".join(bytes([len(label)]) + label for label in labels) + b"\0"


# ---- descriptions


# Names of variables in the templates, words of the language, and constructors that a definition may see: no names of fields.
TAKEN = set(
    "alloc decoder encoder f goal head no order origin other self tokens x y yes as box break const continue data do else enum ensures "
    "extern false first fn for ghost if impl in let loop match mod move mut next pub ref requires return static struct super trait true "
    "type unsafe use where while"
    .split()
)
LINE = re.compile(r"^([A-Z][A-Z0-9]*) (\d+) \(([^)]*)\): ([^;=]+?)(?: = ([^;]+?))?((?:; .*)?)$")
ITEM = re.compile(r"^(\w+) (u8|u16|u32|name)(?: (compressed|lowercased|kept))?: ([^=]+?)(?: = (.+))?$")


def described(line):
    """The type of a line:

        NAME NUMBER (RFC): MEANING [= MEANING OF THE STRUCT]; FIELD KIND [MODE]: SENTENCE [= WORDS BESIDE THE PICTURE]; ..; example TEXT

    A KIND is u8, u16, u32 or name. The name is the last field. Its MODE says how it is emitted: `compressed` (types of RFC 1035 alone:
    RFC 3597, section 4), or uncompressed with case preserved, as `lowercased` (the types whose names DNSSEC has in lower case: RFC 4034,
    section 6.2) or `kept` (all newer types). A standing type that is not straight has `of CRATE` in
    place of fields. `own PLACE ..` names the places where a standing type has lines of its own.
    """
    found = LINE.match(line.strip())
    if not found:
        raise Wrong(f"no description of a type: `{line.strip()}`. It is NAME NUMBER (RFC): MEANING; FIELD KIND: SENTENCE; .. (tools/new_type.py --help)")
    name, number, rfc, meaning, record_meaning, rest = found.groups()
    fields, mode, example, crate, own = [], None, None, None, ()
    for item in filter(None, (part.strip() for part in re.split(r";\s+(?=\w+ (?:u8|u16|u32|name)\b.*?:|example |of |own )", rest[2:]))):
        field = ITEM.match(item)
        if field:
            if field[1] in TAKEN or not re.fullmatch(r"[a-z][a-z0-9_]*", field[1]) or field[1] in [other.name for other in fields]:
                raise Wrong(f"{name}: a field cannot be called `{field[1]}`")
            fields.append(Field(field[1], field[2], field[4], field[5]))
            mode = field[3] or mode
            if field[3] and field[2] != "name":
                raise Wrong(f"{name}: `{field[3]}` is said of the name, not of {field[1]}")
        elif item.startswith("example "):
            example = item[8:]
        elif item.startswith("of "):
            crate = item[3:]
        elif item.startswith("own "):
            own = tuple(item[4:].split())
        else:
            raise Wrong(f"{name}: what is `{item}`?")
    if not 0 < int(number) < 65536:
        raise Wrong(f"{name}: {number} is no number of a type with RDATA")
    if not crate:
        if [field.kind for field in fields].count("name") != 1 or fields[-1].kind != "name":
            raise Wrong(f"{name} is not straight: a straight type has numbers, and one name as its last field")
        if mode not in MODES or not example:
            raise Wrong(f"{name}: its name is compressed, lowercased or kept, and it has an example")
    kind = Type(name, int(number), rfc, meaning, record_meaning or meaning, None if crate else fields, MODES.get(mode), example, crate or "base", own)
    if kind.is_straight:
        kind.octets_of(example)
    return kind


# ---- helpers


def capital(text):
    return text[:1].upper() + text[1:]


def listed(words):
    """a, b and c"""
    return " and ".join(filter(None, [", ".join(words[:-1]), words[-1]]))


def doc(text, indent="", mark="///", width=120):
    """A comment in lines of at most this width."""
    return "".join(f"{line}\n" for line in textwrap.wrap(text, width, initial_indent=f"{indent}{mark} ", subsequent_indent=f"{indent}{mark} ", break_on_hyphens=False, break_long_words=False))


def put(text, indent=""):
    """Lines of a template: without the indentation of this file."""
    return textwrap.indent(textwrap.dedent(text).lstrip("\n"), indent, lambda line: line.strip())


def nested(parts):
    """(a, (b, tt))"""
    return "tt" if not parts else f"({parts[0]}, {nested(parts[1:])})"


def held_in(kind, value="vs"):
    """The fields among values: vs.0, vs.1.0, vs.1.1.0"""
    return [f"{value}.{'1.' * index}0" for index in range(len(kind.fields))]


# ---- dns_types


def type_variant(kind):
    return f"    /// {kind.number}, {kind.meaning} ({kind.rfc}).\n    {kind.name},\n"


def type_entry(kind):
    return f'type_entry {kind.name} = ({kind.number}, codes "{kind.name}")\n'


# ---- dns_rows


def row_static(kind):
    parts = [f"part!({field.part})" for field in kind.fields]
    head = f"/// {kind.name}: {', '.join(field.words for field in kind.fields)} ({kind.rfc}).\npub static {kind.name}: [Part; {len(parts)}] = ["
    one = ", ".join(parts)
    return head + (f"{one}];\n" if len(one) <= 60 else "\n" + "".join(f"    {part},\n" for part in parts) + "];\n")


def row_arm(kind):
    front = f"{kind.row}, {len(kind.numbers)}, {sum(field.octets for field in kind.numbers)}" if kind.numbers else kind.row
    return f"        RecordType::{kind.name} => fields!({front}),\n"


def table_entry(kind):
    return f"table types.{kind.name} = fields rows.{kind.row}\n"


def written_row(kind):
    parts = " ∷ ".join([f"free ({field.kind_of})" if field.is_number else "free Name" for field in kind.fields] + ["[]"])
    return f"  -- {', '.join(field.words for field in kind.fields)}: {kind.rfc}\n  pub {kind.lower} : rows.{kind.name} ≡ {parts}\n"


# ---- the record (dns_rdata_base)


def facts(kind):
    if kind.is_name:
        return put(f"""
            abbrev pub {kind.lower}_fields : {kind.name} → Values name_shape
            {kind.lower}_fields x = name_fields x.0

            abbrev pub {kind.lower}_facts : Facts {kind.name}
            {kind.lower}_facts = plain rows.NAME {kind.lower}_fields
            """)
    text = put(f"""
        -- {', '.join(field.words for field in kind.fields)}
        abbrev pub {kind.lower}_fields : {kind.name} → Values (kinds_of rows.{kind.name})
        {kind.lower}_fields x = {nested([f"x.{field.name}" for field in kind.fields])}

        abbrev pub {kind.lower}_facts : Facts {kind.name}
        {kind.lower}_facts = plain rows.{kind.name} {kind.lower}_fields
        """)
    if len(kind.numbers) > 1:
        text += "\n" + put(f"""
            -- {', '.join(field.words for field in kind.numbers)}
            abbrev pub {kind.lower}_numbers_shape : List Kind
            {kind.lower}_numbers_shape = {' ∷ '.join([field.kind_of for field in kind.numbers] + ['[]'])}

            abbrev pub {kind.lower}_numbers : {kind.name} → Values {kind.lower}_numbers_shape
            {kind.lower}_numbers x = {nested([f"x.{field.name}" for field in kind.numbers])}
            """)
    return text


def picture(kind):
    """The fields below each other, each with its size beside it."""
    labels = [field.name.upper().replace("_", " ") for field in kind.fields]
    width = max(23, *(len(label) + 2 for label in labels))
    width += (2 - width) % 3
    border = "+" + "--+" * ((width + 1) // 3)
    emitted = "compressed" if kind.mode == "StandardRecord" else "uncompressed"
    lines = [border]
    for field, label in zip(kind.fields, labels):
        side = "|" if field.is_number else "/"
        left = (width - len(label)) // 2
        beside = f"{field.kind}, {field.beside}" if field.beside else field.kind
        beside = beside if field.is_number else f"a domain name, {emitted} on emit"
        lines += [f"{side}{' ' * left}{label}{' ' * (width - left - len(label))}{side}   {beside}", border]
    return "".join(f"///     {line}\n" for line in lines)


def errors_of_tokens(kind):
    if kind.is_name:
        return put("""
            ///
            /// # Errors
            ///
            /// - [`MissingToken`](ParseError::MissingToken): there is no token.
            /// - [`Proto`](ParseError::Proto): the token is no name.
            /// - [`Memory`](ParseError::Memory): an allocation failed.
            """, "    ")
    numbers = listed([field.words for field in kind.numbers]).replace(" and ", " or ")
    return put(f"""
        ///
        /// # Errors
        ///
        /// - [`MissingToken`](ParseError::MissingToken): a token is missing.
        /// - [`Message`](ParseError::Message): the token of {numbers} is no such number.
        /// - [`Proto`](ParseError::Proto): the token of {kind.fields[-1].words} is no name.
        /// - [`Memory`](ParseError::Memory): an allocation failed.
        """, "    ")


def from_tokens(kind):
    if kind.is_name:
        words = "Reads one token, the text of a name; a relative name is completed with the origin. Further tokens are not read."
        shape = "name_shape"
        body = f'        Ok({kind.name}(next_name(alloc, &mut tokens, origin, "{kind.name} name")?))\n'
    else:
        numbers = {bits: [field.words for field in kind.numbers if field.bits == bits] for bits in (8, 16, 32)}
        said = [f"{listed(names)}, {'decimal numbers' if len(names) > 1 else 'a decimal number'} of {bits} bits" for bits, names in numbers.items() if names]
        words = (
            f"Reads {WORDS[len(kind.fields)]} tokens: {'; '.join(said)}{';' if len(said) > 1 else ','} and {kind.fields[-1].words}, a name, which is "
            "completed with the origin if it is relative. Further tokens are not read."
        )
        shape = f"(kinds_of {kind.lower}_facts.row)"
        body = "".join(
            f'        let {field.name} = next_{field.kind}(&mut tokens, number_field!("{kind.name} {field.words}"))?;\n' for field in kind.numbers
        )
        last = kind.fields[-1]
        body += f'        let {last.name} = next_name(alloc, &mut tokens, origin, "{kind.name} {last.words}")?;\n'
        body += made(kind, last.name)
    gives = f"{kind.lower}_fields" if kind.is_name else f"{kind.lower}_facts.fields"
    return (
        doc(words, "    ")
        + errors_of_tokens(kind)
        + put(f"""
            pub fn from_tokens<S: AsStr + Drop, I: Iterator<Item = S>>(
                alloc: Global,
                mut tokens: I,
                origin: Option<&Name>,
            ) -> Result<{kind.name}, ParseError>
                requires can {{ I.can_next tokens }}
                ensures {{ ReadsTokenRow I.next_gives S.text (straight_tokens (option_copied origin.entry) {shape}) {gives} result tokens }}
            {{
            """, "    ")
        + body
        + "    }\n"
    )


def made(kind, last):
    """The record of fields that have their names, as what a function returns."""
    if len(kind.fields) == 2:
        return f"        Ok({kind.name}::new({kind.fields[0].name}, {last}))\n"
    return f"        Ok({literal(kind)})\n"


def literal(kind):
    """The struct of variables that have the fields' names, as rt fmt lays it out."""
    names = [field.name for field in kind.fields]
    one = ", ".join(names)
    return f"{kind.name} {{ {one} }}" if len(one) <= 18 else f"{kind.name} {{\n" + "".join(f"            {name},\n" for name in names) + "        }"


def struct(kind):
    text = doc(f"{kind.name} RDATA ({kind.rfc_long}): {kind.record_meaning}.") + "///\n"
    if kind.is_name:
        emitted = "compressed" if kind.mode == "StandardRecord" else "uncompressed"
        text += f"///     /   {kind.fields[0].name.upper()}   /   a domain name, {emitted} on emit\n"
    else:
        text += picture(kind)
    text += f"///\n/// The RDATA `{kind.octets_of(kind.example).hex()}` is `{kind.example}`.\n#[derive(Clone, Debug, Drop, Eq, Hash, PartialEq)]\n"
    if kind.is_name:
        return text + f"pub struct {kind.name}(pub Name);\n"
    text += f"pub struct {kind.name} {{\n"
    for field in kind.fields:
        bits = f"; {field.bits} bits" if field.is_number else ""
        text += doc(f"{field.text}{bits}.", "    ") + f"    pub {field.name}: {field.kind if field.is_number else 'Name'},\n"
    return text + "}\n"


def inherent(kind):
    """`new` and `from_tokens`."""
    if kind.is_name:
        return f"impl {kind.name} {{\n{from_tokens(kind)}}}\n"
    parameters = [f"{field.name}: {field.kind if field.is_number else 'Name'}" for field in kind.fields]
    value = "; ".join(f"{field.name} = {field.name}" for field in kind.fields)
    head = f"    pub fn new({', '.join(parameters)}) -> {kind.name}"
    if len(head) > 100:
        head = "    pub fn new(\n" + "".join(f"        {parameter},\n" for parameter in parameters) + f"    ) -> {kind.name}"
    return (
        f"impl {kind.name} {{\n    /// Makes a record of these fields.\n{head}\n"
        f"        ensures {{ result ≡ record {{ {value} }} }}\n    {{\n        {literal(kind)}\n    }}\n\n{from_tokens(kind)}}}\n"
    )


def reads(kind):
    head = f"impl DecodesFields for {kind.name} {{\n    ghost alone = {{ record {{ checked = refl; asked = refl; alone = refl; long = tt }} }};\n\n"
    head += f"    fn read_fields(decoder: &mut BinDecoder<'_>) -> Result<{kind.name}, DecodeError> {{\n"
    if kind.is_name:
        return head + f"        Ok({kind.name}(Name::read(decoder)?))\n    }}\n}}\n"
    body = "".join(f"        let {field.name} = decoder.read_{field.kind}()?.unverified();\n" for field in kind.numbers)
    if len(kind.fields) == 2:
        return head + body + made(kind, "Name::read(decoder)?") + "    }\n}\n"
    return head + body + f"        let {kind.fields[-1].name} = Name::read(decoder)?;\n" + made(kind, None) + "    }\n}\n"


def emits_numbers(kind):
    """The numbers are appended by one call, if there are several."""
    names = [field.name for field in kind.numbers]
    octets = [f"{field.name}[{at}]" for field in kind.numbers for at in range(field.octets)]
    one = ", ".join(octets)
    call = f"        encoder.emit_vec(&[{one}])\n"
    if len(one) > 60:
        call = "        encoder.emit_vec(&[\n" + "".join(f"            {octet},\n" for octet in octets) + "        ])\n"
    return (
        put(f"""
            impl {kind.name} {{
                // Appends {listed([field.words for field in kind.numbers])} at once.
                #[inline]
                fn emit_numbers(&self, encoder: &mut BinEncoder<'_>) -> Result<(), ProtoError>
                    ensures {{ Emits {kind.lower}_numbers_shape ({kind.lower}_numbers self.now) result encoder.old encoder.new }}
                {{
            """)
        + "".join(f"        let {name} = self.{name}.to_be_bytes();\n" for name in names)
        + call
        + "    }\n}\n"
    )


def emits(kind):
    what = "the name" if kind.is_name else "the fields"
    if kind.mode == "StandardRecord":
        how = f"{what}, {'' if kind.is_name else 'with the name '}compressed against earlier names of the message (RFC 1035, section 4.1.4)"
    elif kind.is_name:
        how = "the name uncompressed, with case preserved"
    else:
        how = "the fields, with the name uncompressed and case preserved"
    head = put(f"""
        impl EncodesFields for {kind.name} {{
            /// Appends {how}.
            const MODE: RDataEncoding = RDataEncoding::{kind.mode};

            ghost MODE = {{ modes.{kind.mode} }};

            fn emit_fields(&self, encoder: &mut BinEncoder<'_>) -> Result<(), ProtoError> {{
        """)
    if kind.is_name:
        return head + "        self.0.emit(encoder)\n    }\n}\n"
    number = kind.fields[0]
    numbers = "self.emit_numbers(encoder)?" if len(kind.numbers) > 1 else f"encoder.emit_{number.kind}(self.{number.name})?"
    return head + f"        {numbers};\n        self.{kind.target}.emit(encoder)?;\n        Ok(())\n    }}\n}}\n"


def derefs(kind):
    return put(f"""
        impl Deref for {kind.name} {{
            type Target = Name;

            ghost deref_gives = {{ λ x n. n ≡ x.0 }};

            fn deref(&self) -> &Name {{
                &self.0
            }}
        }}
        """)


def at_once(kind):
    heads = "".join(f"        head.{field.size}(self.{field.name});\n" for field in kind.numbers)
    return (
        f"impl AtOnce for {kind.name} {{\n    #[inline]\n    fn at_once<'a>(&'a self, head: &mut Head) -> Tail<'a> {{\n"
        f"{heads}        Tail::name(&self.{kind.target})\n    }}\n}}\n"
    )


def ordered(kind):
    lines, before = "", "Ordering::Equal"
    for field in kind.numbers:
        lines += f"        let {field.name} = {field.size}_behind({before}, self.{field.name}, other.{field.name});\n"
        before = field.name
    lines += f"        let order = name_behind({before}, &self.{kind.target}, &other.{kind.target});\n"
    values = "self.0.cmp(&other.0)" if kind.is_name else f"cmp_each_field!((self, other) {' '.join(field.name for field in kind.fields)})"
    return (
        f"impl OrderedRecord for {kind.name} {{\n    #[inline]\n    fn cmp_canonical_fields(&self, other: &{kind.name}) -> Option<Ordering> {{\n"
        f"{lines}        unless_tied(order, self, other, false)\n    }}\n\n"
        f"    fn cmp_values(&self, other: &{kind.name}) -> Ordering {{\n        {values}\n    }}\n}}\n"
    )


def displays(kind):
    what = "the name" if kind.is_name else "the fields in order, with a blank between"
    form = '"' + " ".join(["{}"] * len(kind.fields)) + '"'
    values = ", ".join(f"self.{'0' if kind.is_name else field.name}" for field in kind.fields)
    call = f"        write!(f, {form}, {values})\n"
    if len(f"f, {form}, {values}") > 60:
        call = f"        write!(\n            f,\n            {form},\n            {values}\n        )\n"
    return (
        f"impl fmt::Display for {kind.name} {{\n    ghost output = {{ λ x. Some (straight_text {kind.lower}_facts x) }};\n\n"
        f"    /// Prints {what}.\n    fn fmt<W: fmt::Write>(&self, f: &mut fmt::Formatter<W>) -> fmt::Result {{\n{call}    }}\n}}\n"
    )


def record_blocks(kind):
    """The struct and its impls, in order."""
    row = "NAME" if kind.is_name else kind.name
    is_record = (
        f"impl Record for {kind.name} {{\n    ghost facts = {{ {kind.lower}_facts }};\n\n    #[inline]\n"
        f"    fn row() -> &'static [Part] {{\n        &row::{row}\n    }}\n}}\n"
    )
    if kind.is_name:
        return [struct(kind), inherent(kind), is_record, reads(kind), emits(kind), derefs(kind), ordered(kind), displays(kind)]
    more = [emits_numbers(kind)] if len(kind.numbers) > 1 else []
    return [struct(kind), inherent(kind), is_record, reads(kind), *more, emits(kind), at_once(kind), ordered(kind), displays(kind)]


def record_file(kind):
    """The file of a record with numbers."""
    several = len(kind.numbers) > 1
    emits_too = "ghost use Rattle.dns_names_wire.specs.{Terms.Emits};\n" if several else ""
    shape = f"{kind.lower}_numbers_shape, {kind.lower}_numbers, " if several else ""
    behind = ", ".join(sorted({f"{field.size}_behind" for field in kind.numbers} | {"name_behind"}))
    takes = ", ".join(["next_name", *sorted({f"next_{field.kind}" for field in kind.numbers}, key=lambda name: int(name[6:])), "number_field"])
    head = put(f"""
        //! {kind.name}: {kind.meaning} ({kind.rfc}).

        ghost use Rattle.dns_rows.specs.Table.{{kinds_of}};
        ghost use Rattle.std.specs.{{Prelude.◌≡◌, Prelude.Some, Option.option_copied, Prelude.refl}};
        ghost use Rattle.dns_fields.specs.declared.RDataEncoding.TheVariants as modes;
        {emits_too.strip()}
        ghost use Rattle.dns_rdata_base.specs.NameRecords.{{{shape}{kind.lower}_facts}};
        ghost use Rattle.dns_tokens.specs.{{Reads.ReadsTokenRow, Straight.straight_tokens, Straight.straight_text}};

        use crate::{{OrderedRecord, cmp_each_field, unless_tied}};
        use dns_canonical::{{AtOnce, Head, Tail, {behind}}};
        use dns_check::DecodesFields;
        use dns_names_wire::{{
            BinDecoder, BinEncodable, BinEncoder, DecodeError, EncodesFields, Name, ParseError, ProtoError,
            RDataEncoding, Record,
        }};
        use dns_rows::{{Part, row}};
        use dns_tokens::{{{takes}}};
        use std::alloc::Global;
        use std::cmp::Ordering;
        use std::convert::AsStr;
        use std::fmt;
        """)
    if not several:
        head = head.replace("modes;\n\nghost", "modes;\nghost")
    return "\n".join([head, *record_blocks(kind)])


# ---- proofs of a record with several numbers


def proof_emits(kind):
    return put(f"""
        use Rattle.std.proofs.Common.{{[], ◌∷◌}}
        use Rattle.dns_fields.specs.declared.Kind.{{TheVariants.Name}}
        use Rattle.dns_names_wire.proofs.{{FieldWrites.exit_emit, FieldWrites.stopped_first, NamelessWrites.stopped_more}}
        use Rattle.dns_rdata_base.specs.NameRecords.{{{kind.lower}_numbers_shape, {kind.lower}_numbers}}
        use Rattle.dns_rdata_base.proofs.{kind.lower}.{kind.name}EncodesFields.emit_fields.Goals as goal

        pub returns-in_err-emit : goal.returns-in_err-emit
        returns-in_err-emit c = record {{
          emits = exit_emit _ _ c.from_residual-in_err-emit.ensures.1
              (stopped_more _ {kind.lower}_numbers_shape (Name ∷ []) ({kind.lower}_numbers c.args.self.now) (c.args.self.now.{kind.target}, tt) _ _ _ c.in_ok-emit_numbers.ensures
              (stopped_first c.in_err-emit.ensures.emits));
        }}
        """)


def proof_numbers(kind):
    fits = nested(["omega arith"] * len(kind.numbers))
    then = "refl"
    for field in reversed(kind.numbers):
        first = f"number_then {field.octets} _ _ _" if field.octets > 1 else "octet_then _ _ _ (omega arith)"
        then = f"{first} {then if then == 'refl' else f'({then})'}"
    lemmas = [lemma for lemma in ("emits_nameless", "number_then", "octet_then") if lemma == "emits_nameless" or lemma in then]
    return put(f"""
        use Rattle.std.proofs.Common.{{arith, refl}}
        use Rattle.dns_fields.specs.Fields.{{field_octets}}
        use Rattle.dns_names_wire.proofs.NamelessWrites.{{{', '.join(lemmas)}}}
        use Rattle.dns_rdata_base.specs.NameRecords.{{{kind.lower}_numbers_shape, {kind.lower}_numbers}}
        use Rattle.dns_rdata_base.proofs.{kind.lower}.{kind.name}.emit_numbers.Goals as goal

        pub returns : goal.returns
        unfolding field_octets
        returns c =
            let e = rw ({', '.join(f'c.to_be_bytes-{field.name}.ensures' for field in kind.numbers)}) at c.emit_vec.ensures.emits in
            emits_nameless {kind.lower}_numbers_shape ({kind.lower}_numbers c.args.self.now) _ _ _ _ tt {fits}
            ({then}) e
        """)


# ---- the value (dns_rdata)


def value_variant(kind):
    return f"    /// {capital(kind.meaning)}.\n    {kind.name}({kind.name}),\n"


def target_arm(kind):
    return f"            RData::{kind.name}(x) => Some(&x.{kind.target}),\n"


def emit_other_arm(kind):
    return f"            RData::{kind.name}(x) => return emit_whole_record(x, encoder),\n"


def variant_impl(kind):
    name = kind.name
    return put(f"""
        impl Variant for {name} {{
            const TYPE: RecordType = RecordType::{name};

            ghost TYPE = {{ types.{name} }};

            ghost variant = {{ record {{ wrapped = λ x. rdata.{name} x; borrowed = elim [ rdata.{name} x ↦ Some x | v ↦ None ] }} }};

            ghost holds = {{ Prim.search rules }};

            fn held_in(rdata: &RData) -> Option<&{name}> {{
                held!(rdata, {name})
            }}

            fn moved_from(rdata: RData) -> Result<{name}, RData> {{
                moved!(rdata, {name})
            }}

            fn in_value(self) -> RData {{
                RData::{name}(self)
            }}
        }}
        """)


def step_arm(kind):
    step = "name_step(&x.0, step, head)" if kind.is_name else "whole_step(x, step, head)"
    return f"            RData::{kind.name}(x) => of_value(x, {step}, step, part, item, head),\n"


def tokens_arm(kind):
    return f"            RecordType::{kind.name} => wrap({kind.name}::from_tokens(alloc, tokens, origin)),\n"


def values_of(kind):
    """The fields of a value x, as specs of dns_rdata name them."""
    if not kind.is_straight:
        return f"{kind.crate}.{kind.name}.{kind.lower}_fields x"
    return "base.NameRecords.name_fields x.0" if kind.is_name else f"base.NameRecords.{kind.lower}_fields x"


def fields_of(kind):
    return f"fields_of (rdata.{kind.name} x) = by_row rows.{kind.row} ({values_of(kind)})\n"


def type_of(kind):
    return f"type_of (rdata.{kind.name} x) = types.{kind.name}\n"


def mode_for(kind):
    return f"mode_for own (rdata.{kind.name} x) = modes.{kind.mode}\n"


def rank(kind):
    return f"rank (rdata.{kind.name} x) = {kind.rank}\n"


def variant_key(kind):
    return f"    fields (kinds_of rows.{kind.row}) (elim [ rdata.{kind.name} x ↦ Some ({values_of(kind)}) | v ↦ None ]) ∷\n"


def is_printed(kind):
    what = "IsPrintedName x.0" if kind.is_name else f"ArePrinted (kinds_of base.NameRecords.{kind.lower}_facts.row) (base.NameRecords.{kind.lower}_facts.fields x)"
    return f"IsPrinted (rdata.{kind.name} x) = {what}\n"


def hash_of(kind):
    return f"{kind.crate}.{kind.module}.{kind.name}Hash.TheImpl"


def record_fed(kind):
    return f"record_fed (rdata.{kind.name} x) = {hash_of(kind)}.ghosts.hash_input x\n"


def broken(head, body, width):
    """A clause in one line, or with its body in the next if that is too long."""
    return f"{head} {body}\n" if len(f"{head} {body}") <= width else f"{head}\n    {body}\n"


def fed_same(kind):
    name = kind.name
    return broken(f"record_fed_same (rdata.{name} x) (rdata.{name} y) h =", f"{hash_of(kind)}.Laws.respects_eq-law x y (simp and-true at h)", 120)


def same_octets(kind):
    name, lower, base = kind.name, kind.lower, "base.NameRecords"
    head = f"same_octets (rdata.{name} x) (rdata.{name} y) h =\n"
    if kind.is_name:
        return head + f"    octets_equal {base}.name_shape ({base}.{lower}_fields x) ({base}.{lower}_fields y) h\n"
    return head + f"    octets_equal (kinds_of {base}.{lower}_facts.row) ({base}.{lower}_facts.fields x)\n    ({base}.{lower}_facts.fields y) h\n"


def target_of(kind):
    return f"target_of (rdata.{kind.name} x) = Some x.{kind.target}\n"


READ = "c.in-{name}.is"


def read_goals(kind):
    """The proofs of the two exits of `RData::read`."""
    name, fields = kind.name, f"base.NameRecords.{kind.lower}_fields"
    call = f"read_whole-in-{name}"
    failed, error = f"c.from_residual-in_err-{call}", f"c.in_err-{call}.ensures"
    return put(f"""
        pub returns-in-{name} : goal.returns-in-{name}
        returns-in-{name} c =
            let w = c.in_ok-{call}.ensures.found in
            gives c.in-{name}.is (has_read types.{name} rdata.{name} {fields} _ w.message w.index w.region (record {{ type = refl; fields = refl; can_be_read = tt }}))

        pub returns-in_err-{call} : goal.returns-in_err-{call}
        returns-in_err-{call} c =
            fails types.{name} c.args.length _ {failed}.result c.in-{name}.is {failed}.ensures.1 (λ h. h) {error}.refused {error}.why {error}.behind
        """)


def tokens_goal(kind):
    name = kind.name
    return put(f"""
        pub returns-in-{name} : goal.returns-in-{name}
        returns-in-{name} g c = rw c.in-{name}.is (by_token_row _ types.{name} _ (λ x. rdata.{name} x) _ (λ h. h) (λ v tokens. (λ is. is, λ is. is)) c.from_tokens-in-{name}.ensures (λ x _. record {{ type = refl; fields = refl; can_be_read = tt }}) c.wrap-in-{name}.ensures)
        """)


def back_of(kind):
    fields, kinds = ("name_fields x.0", "name_shape") if kind.is_name else (f"{kind.lower}_facts.fields x", f"(kinds_of {kind.lower}_facts.row)")
    printed = "(h, tt)" if kind.is_name else "h"
    return (
        f"back_of origin (rdata.{kind.name} x) h = record {{ values = {fields}; stand = straight_back origin {kinds} ({fields}) {printed}; "
        "value = record { type = refl; fields = refl; can_be_read = tt } }\n"
    )


def value_for(kind):
    fields = "; ".join(f"{'0' if kind.is_name else field.name} = {value}" for field, value in zip(kind.fields, held_in(kind)))
    return f"value_for types.{kind.name} vs = rdata.{kind.name} (record {{ {fields} }})\n"


def by_rank(kind):
    return f"by_rank (rdata.{kind.name} x) (rdata.{kind.name} y) d = absurd (true≢false (sym d))\n"


def zone_fields(kind):
    """The fields of zone text: the kind in the code, how errors name it, and the macro of its texts."""
    for field in kind.fields:
        called = f"{kind.name} name" if kind.is_name else f"{kind.name} {field.words}"
        yield (f"U{field.bits}", called, "number_field") if field.is_number else ("Name", called, "name_field")


def zone_static(kind):
    parts = [f'ZoneField::{part}({macro}!("{called}"))' for part, called, macro in zone_fields(kind)]
    head = f"static {kind.name}: [ZoneField; {len(parts)}] = ["
    if len(parts) == 1:
        return f"{head}{parts[0]}];\n"
    return head + "\n" + "".join(f"    {part},\n" for part in parts) + "];\n"


def zone_arm(kind):
    return f"            RecordType::{kind.name} => $fields(&{kind.name}),\n"


def zone_row(kind):
    said = "" if kind.is_name else f"{', '.join(field.words for field in kind.fields)}: "
    return f"-- {said}{kind.rfc}\nzone_row_of types.{kind.name} = zone_row ({kind.kinds}) NoToken\n"


def zone_row_texts(kind):
    parts = [f'{macro.split("_")[0]}_called (codes "{called}")' for _, called, macro in zone_fields(kind)] + ["no_more", "[]"]
    one = f"texts_of types.{kind.name} = Some ({' ∷ '.join(parts)})"
    if len(one) <= 120:
        return one + "\n"
    return f"texts_of types.{kind.name} = Some (\n    {parts[0]}\n" + "".join(f"    ∷ {part}{')' if part == '[]' else ''}\n" for part in parts[1:])


def zone_print(kind):
    if kind.is_name:
        return f"            RData::{kind.name}(x) => f.write(ZoneName(&x.0)),\n"
    name, form = kind.target, " ".join(["{}"] * len(kind.numbers) + ["{%s}" % kind.target])
    values = ", ".join(f"x.{field.name}" for field in kind.numbers)
    return (
        f"            RData::{kind.name}(x) => {{\n                let {name} = ZoneName(&x.{name});\n"
        f'                write!(f, "{form}", {values})\n            }}\n'
    )


def has_names_arm(kind):
    return f"        | RecordType::{kind.name}\n"


def zone_text(kind):
    parts = [f"decimal x.{field.name}" for field in kind.numbers] + [f"zone_name x.{kind.target}"]
    head, blank = f"zone_text (rdata.{kind.name} x) = ", ' ++ codes " " ++ '
    one = head + blank.join(parts)
    return one + "\n" if len(one) <= 120 else head + blank.join(parts[:-1]) + f'\n    ++ codes " " ++ {parts[-1]}\n'


def fields_fit(kind):
    parts = [f"(x.{field.name} < 2 ^ {field.bits})" for field in kind.numbers] + [f"IsWritable x.{kind.target}"]
    return f"FieldsFit (rdata.{kind.name} x) = {' × '.join(parts)}\n"


def filled(kind):
    parts = [f"h.{'2.' * at}1.is.0" for at in range(len(kind.numbers))] + [f"name_fits a h.{'2.' * len(kind.numbers)}1"]
    body = parts[0] if len(parts) == 1 else f"({', '.join(parts)})"
    return f"fields_fit m p (rdata.{kind.name} x) e a h = {body}\n"


def texts_are(kind):
    head = f"texts_are origin (rdata.{kind.name} x) h = inr (own origin types.{kind.name} _ NoToken _ _ refl"
    if kind.is_name:
        return f"{head} (last (named origin x.0 h)))\n"
    joined = {2: "two", 3: "three", 4: "four"}.get(len(kind.fields))
    if not joined:
        raise Wrong(f"{kind.name}: dns_rdata_zone/proofs/TextsGive.antt has `two` to `four` for the texts of fields, and no such lemma for {len(kind.fields)}")
    texts = [f"(decimal x.{field.name})" for field in kind.numbers] + [f"(zone_name x.{kind.target})"]
    rows = [f"(row_then (short_text origin {field.octets} x.{field.name} (omega arith) h.{at}) " for at, field in enumerate(kind.numbers)]
    last = f"(last (named origin x.{kind.target} h.{len(kind.numbers)}))"
    text = f"(row_text ({joined} {' '.join(texts)}) {''.join(rows)}{last}{')' * (len(rows) + 1)})"
    if len(kind.fields) == 2:
        return f"{head}\n    {text}\n"
    lines, row = [f"(row_text ({joined} {' '.join(texts)})"], ""
    for part in rows + [last + ")" * (len(rows) + 2)]:
        if row and len(row) + len(part) > 146:
            lines.append(row.rstrip())
            row = ""
        row += part
    return f"{head}\n" + "".join(f"    {line}\n" for line in lines + [row])


# ---- the reference model, and data of tests


def model_entry(kind):
    recognizer = "one_name" if kind.is_name else f"numbers_and_name({', '.join(str(field.octets) for field in kind.numbers)})"
    return f'    ({kind.number}, "{kind.name}", {recognizer}, {kind.mode == "StandardRecord"}),\n'


def model_steps(kind):
    return f'    "{kind.name}": [{sum(field.octets for field in kind.numbers)}, "name"],\n'


def model_words(kind):
    parts = ", ".join([f"words.number({field.octets})" for field in kind.numbers] + ["words.name()"])
    return f'    "{kind.name}": lambda words: [{parts}],\n'


def around_name(kind):
    """Octets before the name: one run where the last of them looks like a label, and one of zeros."""
    count = sum(field.octets for field in kind.numbers)
    label = bytes(max(count - 2, 0)) + b"\x01\x61" if count > 1 else b"\x01"
    return f'    "{kind.name}": [({label!r}, b""), ({bytes(count)!r}, b"")],\n'


def small(kind):
    """A text with the numbers 1, 2 .. and the name `A.`, its octets, and the canonical ones."""
    words = [str(at + 1) for at in range(len(kind.numbers))]
    return " ".join([*words, "A."]), kind.octets_of(" ".join([*words, "A."])), kind.octets_of(" ".join([*words, "a."]))


def golden_lines(kind):
    """Runs of the program, worked out from the row."""
    text, octets, canonical = small(kind)
    length = len(octets)

    def printed(shown, small_octets, emitted):
        return f"0\ttype {kind.number}\\ntext {shown}\\ncanonical {small_octets.hex()}\\nemitted {emitted.hex()}\\n"

    yield f"{printed(text, canonical, octets)}\tread\t{kind.name}\t0\t{length}\t{octets.hex()}"
    yield f"{printed(text, canonical, octets)}\tparse\t{kind.name}\t{text}"
    for cut in range(length):
        yield f"1\trefused\\n\tread\t{kind.name}\t0\t{cut}\t{octets[:cut].hex() or '-'}"
    yield f"1\trefused\\n\tread\t{kind.name}\t0\t{length - 1}\t{octets.hex()}"
    yield f"1\trefused\\n\tread\t{kind.name}\t0\t{length + 1}\t{octets.hex()}00"
    # The name is a compression pointer to the name at the beginning.
    numbers = octets[: length - 3]
    yield f"{printed(text, canonical, octets)}\tread\t{kind.name}\t3\t{len(numbers) + 2}\t014100{numbers.hex()}c000"
    yield f"1\trefused\\n\tread\t{kind.name}\t0\t{len(numbers) + 2}\t{numbers.hex()}c0{len(numbers):02x}"
    yield f"0\tequal\\n\tcmp\t{kind.name}\t{octets.hex()}\t{canonical.hex()}"
    yield f"0\tless\\n\tcmp\t{kind.name}\t{octets.hex()}\t{kind.octets_of(text[:-2] + 'B.').hex()}"
    yield f"1\trefused\\n\tparse\t{kind.name}\t"
    words = text.split(" ")
    for at, field in enumerate(kind.numbers):
        for word in (str(2**field.bits), "-1", "x", '""'):
            yield f"1\trefused\\n\tparse\t{kind.name}\t{' '.join([*words[:at], word, *words[at + 1 :]])}"
        most = " ".join([*words[:at], str(2**field.bits - 1), *words[at + 1 :]])
        yield f"{printed(most, kind.octets_of(most.lower()), kind.octets_of(most))}\tparse\t{kind.name}\t{most}"
        yield f"1\trefused\\n\tparse\t{kind.name}\t{' '.join(words[: at + 1])}"
    yield f"1\trefused\\n\tparse\t{kind.name}\t{' '.join([*words[:-1], 'a..'])}"


def zone_golden_lines(kind):
    """Texts of zone files, and the errors about them. The origin is `ex.`."""
    words = [str(at + 1) for at in range(len(kind.numbers))]
    front = kind.octets_of(" ".join([*words, "."]))[:-1].hex()
    name = f"{kind.name} {'name' if kind.is_name else kind.fields[-1].words}"
    yield f"row {kind.name}\t{front}046d61696c02657800\t{' '.join([*words, 'mail'])}"
    yield f"row {kind.name}\t{front}046d61696c00\t{' '.join([*words, 'mail.'])}"
    if words:
        yield f"row {kind.name}\t{name} missing\t{' '.join(words)}"
    yield f"row {kind.name}\tdomain name in quotes in {name} token\t" + " ".join([*words, '"a"'])
    yield f"row {kind.name}\tsurplus token after the RDATA\t{' '.join([*words, 'a', 'b'])}"
    for at, field in enumerate(kind.numbers):
        called = f"{kind.name} {field.words}"
        yield f"row {kind.name}\tInvalid digit found in {called} token\t{' '.join([*words[:at], str(2**field.bits), *words[at + 1 :], 'a'])}"
        if at:
            yield f"row {kind.name}\t{called} missing\t{' '.join(words[:at])}"


def sample(kind):
    octets = kind.octets_of(kind.example)
    return f"{kind.name} 0 {len(octets)} {octets.hex()}\n"


def text_sample(kind):
    return f"{kind.name} {kind.example}\n"


def request_lines(kind):
    """How often a call allocates: never, with names of at most 33 octets."""
    octets = kind.octets_of(" ".join([*(str(at + 1) for at in range(len(kind.numbers))), "a."]))
    example = kind.octets_of(kind.example)
    if len(example) > 33 + sum(field.octets for field in kind.numbers):
        raise Wrong(f"{kind.name}: the name of the example has more than 33 octets")
    for call in ("read", "print", "clone", "equal"):
        yield f"{call} 0 {kind.name} 0 {len(octets)} {octets.hex()}"
    yield f"fresh 0 {kind.name} 0 {len(octets)} {octets.hex()}"
    yield f"parse 0 {kind.name} {kind.example}"
    yield f"zone 0 {kind.name} 0 {len(example)} {example.hex()}"
    yield f"zone_parse 0 {kind.name} {kind.example}"


# ---- pages and the other languages


def rust_constant(kind):
    return f'    {kind.name} {kind.number} "{kind.meaning} ({kind.rfc_long})"\n'


def python_constant(kind):
    return f"    {kind.name} = {kind.number}\n"


def page_row(kind):
    anchor = "records-of-one-name" if kind.is_name else kind.lower
    rfc = re.sub(r"^RFC ", "", kind.rfc)
    return f"| [{kind.name}](#{anchor}) | {kind.number} | {rfc} | `{kind.name}` | yes | yes | {'yes' if kind.mode == 'StandardRecord' else 'no'} |\n"


def page_section(kind):
    border, row, below = "+", "", ""
    for field in kind.fields:
        label = field.name.upper().replace("_", " ")
        width = max(5 * field.octets - 1, len(label)) if field.is_number else len(label) + 2
        left = (width - len(label)) // 2
        cell = " " * left + label + " " * (width - left - len(label))
        pieces = ["----"] * (field.octets - 1) if field.is_number else []
        pieces.append("-" * (width - 5 * len(pieces)))
        border += "+".join(pieces) + "+"
        side = "|" if field.is_number else "/"
        row = (row[:-1] if side == "/" and row else row) + (side if not row or side == "/" else "") + cell + side
        below += (" " * (1 + (width - 1) // 2) + str(field.octets)).ljust(width + 1) if field.is_number else " a domain name"
    said = "; ".join(f"`{field.name}`, {field.text[:1].lower()}{field.text[1:]}" for field in kind.fields)
    return (
        f"## {kind.name}\n\n```text\n{border}\n{row}\n{border}\n{below.rstrip()}\n```\n\n{capital(said)}. Zone text `{kind.example}`. "
        "Own errors: `InsufficientBytes`, `NameInvalid`.\n"
    )
