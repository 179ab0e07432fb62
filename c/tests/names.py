"""Compares c/include/dns_rdata.h, rust/dns-rdata-sys/src/lib.rs and python/src/dns_rdata with crates/dns_rdata_c/src: the numbers of
statuses with their names, the fields of structs, and each call with the types of its arguments and its result; the types of all with the
table of crates/dns_types; the texts of statuses, and the versions, with each other. The status is 0 if all are the same."""

import pathlib
import re
import sys

TOP = pathlib.Path(__file__).resolve().parents[2]
CRATE = TOP / "crates/dns_rdata_c/src"

# What C and Rust pass for each type of the crate; octets are a pointer and a length, and an allocator nothing.
IN_C = {
    "Global": [], "&[u8]": ["octets", "size_t"], "&mut [u8]": ["buffer", "size_t"], "usize": ["size_t"], "u16": ["uint16_t"],
    "&mut usize": ["size_t *"], "&mut u16": ["uint16_t *"], "&mut i32": ["int32_t *"],
    "&mut Reason": ["struct dns_rdata_refusal *"], "&mut TextFault": ["struct dns_rdata_text_fault *"], "&mut PartsCursor": ["struct dns_rdata_parts *"],
    "&Rdata<'_>": ["const struct dns_rdata *"], "&mut RecordsCursor": ["struct dns_rdata_records *"], "&mut Record": ["struct dns_rdata_record *"],
}
OF_C = {"const uint8_t *": "octets", "const char *": "octets", "uint8_t *": "buffer", "char *": "buffer", "dns_rdata_status": "u32", "int32_t": "i32"}
OF_RUST = {
    "*const u8": "octets", "*const c_char": "octets", "*mut u8": "buffer", "*mut c_char": "buffer", "usize": "size_t", "u16": "uint16_t",
    "*mut usize": "size_t *", "*mut u16": "uint16_t *", "*mut i32": "int32_t *", "*mut dns_rdata_refusal": "struct dns_rdata_refusal *",
    "*mut dns_rdata_parts": "struct dns_rdata_parts *", "*const dns_rdata": "const struct dns_rdata *",
    "*mut dns_rdata_text_fault": "struct dns_rdata_text_fault *", "*mut dns_rdata_records": "struct dns_rdata_records *", "*mut dns_rdata_record": "struct dns_rdata_record *", "dns_rdata_status": "u32",
}
OF_PYTHON = {
    "DATA": ["const struct dns_rdata *"], "*ROOM": ["buffer", "size_t", "size_t *"], "OCTETS": ["octets"], "SIZE": ["size_t"],
    "SHORT": ["uint16_t"], "TELLS": ["int32_t *"], "NUMBER": ["uint16_t *"], "COUNT": ["size_t *"],
    "ctypes.POINTER(Refusal)": ["struct dns_rdata_refusal *"], "ctypes.POINTER(Parts)": ["struct dns_rdata_parts *"],
    "ctypes.POINTER(TextFault)": ["struct dns_rdata_text_fault *"], "ctypes.POINTER(Records)": ["struct dns_rdata_records *"], "ctypes.POINTER(Record)": ["struct dns_rdata_record *"],
}
# The structs: where the crate has each, its name there and in Python.
STRUCTS = {
    "dns_rdata": ("rdata.rt", "Rdata", "Data"), "dns_rdata_refusal": ("rdata.rt", "Reason", "Refusal"),
    "dns_rdata_parts": ("parts.rt", "PartsCursor", "Parts"), "dns_rdata_records": ("records.rt", "RecordsCursor", "Records"),
    "dns_rdata_record": ("records.rt", "Record", "Record"), "dns_rdata_text_fault": ("parse.rt", "TextFault", "TextFault"),
}
# The types of their fields in the crate and in dns-rdata-sys, and in Python. Octets of the crate are a pointer and a length.
FIELD = {"usize": "size_t", "u32": "uint32_t", "u16": "uint16_t", "*const u8": "const uint8_t *"}
PYTHON_FIELD = {"size_t": "size_t", "uint32": "uint32_t", "uint16": "uint16_t", "char_p": "const uint8_t *"}
# Fields that Rust cannot name as C does, or C++ as Rust does.
C_NAME = {"type_number": "type", "class": "rrclass"}

wrong = 0


def want_same(what, crate, other):
    global wrong
    for name in sorted(crate.keys() | other.keys()):
        if crate.get(name) != other.get(name):
            wrong += 1
            print(f"{what} {name}: {crate.get(name)} in the crate, {other.get(name)}")


def crate_calls():
    calls = {}
    for path in sorted(CRATE.glob("*.rt")):
        for name, given, answer in re.findall(r'extern "C" fn (\w+)\(([^)]*)\) -> (\w+)', path.read_text()):
            types = [it.split(":")[1].strip() for it in given.split(",") if ":" in it]
            calls[name] = (sum((IN_C[it] for it in types), []), answer)
    return calls


def header_calls(header):
    calls = {}
    for answer, name, given in re.findall(r"DNS_RDATA_NONNULL (\w+) (dns_rdata_\w+)\(([^)]*)\);", header):
        types = [re.sub(r"\w+$", "", " ".join(it.split())).strip() for it in given.split(",")]
        calls[name] = ([OF_C.get(it, it) for it in types], OF_C[answer])
    return calls


def rust_calls(source):
    calls = {}
    for name, given, answer in re.findall(r"fn (dns_rdata_\w+)\(([^)]*)\)\s*-> (\w+);", source):
        types = [it.split(":")[1].strip() for it in given.split(",") if ":" in it]
        calls[name] = ([OF_RUST.get(it, it) for it in types], OF_RUST.get(answer, answer))
    return calls


def python_calls(source):
    calls = {}
    for name, given in re.findall(r'^    "(dns_rdata_\w+)": \[(.*)\],$', source, re.M):
        calls[name] = sum((OF_PYTHON.get(it, [it]) for it in given.split(", ")), [])
    return calls


def fields_of(body):
    """The fields of a struct in Rust, as C has them."""
    fields = []
    for field, kind in re.findall(r"pub (\w+): ([^,]+),", body):
        if kind == "&'a [u8]":
            fields += [(field, "const uint8_t *"), (field + "_length", "size_t")]
        else:
            fields.append((C_NAME.get(field, field), FIELD.get(kind, kind)))
    return fields


def crate_fields(file, name):
    return fields_of(re.search(rf"#\[repr\(C\)\]\n#\[derive\([^)]*\)\]\npub struct {name}(?:<'a>)? \{{(.*?)\n\}}", (CRATE / file).read_text(), re.S).group(1))


def header_fields(header, name):
    body = re.search(rf"^struct {name} \{{(.*?)\n\}};", header, re.S | re.M).group(1)
    return [(field, kind.strip()) for kind, field in re.findall(r"^    (\w[\w ]* \*?)(\w+);", body, re.M)]


def rust_fields(source, name):
    return fields_of(re.search(rf"#\[repr\(C\)\]\n#\[derive\([^)]*\)\]\npub struct {name} \{{(.*?)\n\}}", source, re.S).group(1))


def python_fields(source, name):
    body = re.search(rf"^class {name}\(ctypes\.Structure\):.*?_fields_ = \[(.*?)\]\n", source, re.S | re.M).group(1)
    return [(field, PYTHON_FIELD.get(kind, kind)) for field, kind in re.findall(r'"(\w+)", ctypes\.c_(\w+)\)', body)]


def numbers(text, pattern):
    return {name: int(number) for name, number in re.findall(pattern, text, re.M)}


def types():
    table = (TOP / "crates/dns_types/src/record_type.rt").read_text().split("macro_rules! named_types")[1].split("};")[0]
    of_crate = {name: int(number) for name, number in re.findall(r"\((\w+) (\d+)\)", table)}
    rust = (TOP / "rust/dns-rdata/src/record_type.rs").read_text()
    python = (TOP / "python/src/dns_rdata/_rdtype.py").read_text()
    want_same("type", of_crate, numbers((TOP / "c/include/dns_rdata.h").read_text(), r" DNS_RDATA_TYPE_(\w+) = (\d+)"))
    want_same("Rust's type", of_crate, numbers(rust, r'^    ([A-Z\d]+) (\d+) "'))
    want_same("Python's type", of_crate, numbers(python, r"^    ([A-Z\d]+) = (\d+)$"))
    return len(of_crate)


def texts():
    """The texts of statuses: those of the Rust crate have one for MEMORY, and those of Python none."""
    in_c = dict(re.findall(r'case DNS_RDATA_(\w+): return "(.*)";', (TOP / "c/texts.c").read_text()))
    in_rust = dict(re.findall(r'^    \w+ DNS_RDATA_(\w+) "(.*)"$', (TOP / "rust/dns-rdata/src/error.rs").read_text(), re.M))
    in_python = dict(re.findall(r'Status\.(\w+): "(.*)",', (TOP / "python/src/dns_rdata/_errors.py").read_text()))
    want_same("Rust's text of", {name: text for name, text in in_c.items() if name != "OK"}, in_rust)
    want_same("Python's text of", {name: text for name, text in in_c.items() if name not in ("OK", "MEMORY")}, in_python)


def versions():
    header = (TOP / "c/include/dns_rdata.h").read_text()
    version = re.search(r'DNS_RDATA_VERSION "(.*)"', header).group(1)
    found = {"numbers": ".".join(re.findall(r"DNS_RDATA_VERSION_[A-Z]+ (\d+)", header))}
    for file in ("c/Makefile", "rust/Cargo.toml", "python/pyproject.toml", "python/src/dns_rdata/__init__.py"):
        found[file] = re.search(r'^(?:__)?(?:VERSION|version)(?:__)? = "?([\d.]+)', (TOP / file).read_text(), re.M).group(1)
    want_same("the version of", dict.fromkeys(found, version), found)


def main():
    status = (CRATE / "status.rt").read_text()
    header = (TOP / "c/include/dns_rdata.h").read_text()
    rust = (TOP / "rust/dns-rdata-sys/src/lib.rs").read_text()
    of_crate = numbers(status, r"^pub const (\w+): u32 = (\d+);")
    want_same("status", of_crate, numbers(header, r"^    DNS_RDATA_(?!TYPE_)(\w+) = (\d+)"))
    python = (TOP / "python/src/dns_rdata/_calls.py").read_text()
    of_python = numbers((TOP / "python/src/dns_rdata/_errors.py").read_text(), r"^    ([A-Z_\d]+) = (\d+)$")
    firsts = ("REFUSED", "DAMAGED", "NO_DATA_TEXT")
    want_same("Python's status", {name: number for name, number in of_crate.items() if name not in firsts}, of_python)
    want_same("Rust's status", of_crate, numbers(rust, r"^pub const DNS_RDATA_(\w+): dns_rdata_status = (\d+);"))
    want_same("struct", dict.fromkeys(STRUCTS, 1), dict.fromkeys(re.findall(r"^struct (\w+) \{", header, re.M), 1))
    for name, (file, in_crate, in_python) in STRUCTS.items():
        fields = {name: crate_fields(file, in_crate)}
        want_same("the fields of", fields, {name: header_fields(header, name)})
        want_same("in Rust the fields of", fields, {name: rust_fields(rust, name)})
        want_same("in Python the fields of", fields, {name: python_fields(python, in_python)})
    calls = crate_calls()
    want_same("call", calls, header_calls(header))
    want_same("Rust's call", calls, rust_calls(rust))
    want_same("Python's call", {name: takes for name, (takes, answer) in calls.items()}, python_calls(python))
    many = types()
    texts()
    versions()
    print(f"{len(calls)} calls, {len(STRUCTS)} structs, {many} types, {wrong} not the same")
    return 1 if wrong or len(calls) < 10 or many < 30 else 0


sys.exit(main())
