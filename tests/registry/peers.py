#!/usr/bin/env python3
"""Asks other libraries about the texts, octets and messages that are stored here, and writes what they return beside them.

    tests/registry/build.sh WORK_DIR
    tests/registry/peers.py WORK_DIR texts octets printed canonical messages

The gate does not run this. Type, text, octets and what is wanted stay as they are; only the columns of the libraries are written. In
them `refused` (of a text) or `rejected` (of RDATA) is an error, `unknown` a type that the library has no format of, `=` the same as
what is wanted, and anything else the octets that it returns.

A driver reads lines from standard input, `TYPE<tab>TEXT` or `TYPE PLACE LENGTH OCTETS`, and its line for each is `accepted` and the
octets (`-` for none), `rejected` and the reason, or `unknown`; a tab is between the two.
"""
import pathlib
import subprocess
import sys

HERE = pathlib.Path(__file__).resolve().parent
sys.path.insert(0, str(HERE.parent))
import plain_table  # noqa: E402

# The libraries, in the order of the columns: the Debian package whose version is told, and the command.
LIBRARIES = {
    "BIND": ("bind9-dev", "bind"),
    "ldns": ("libldns-dev", "ldns"),
    "dnspython": ("python3-dnspython", None),
    "miekg/dns": ("golang-github-miekg-dns-dev", "miekg"),
}


def version(name):
    """The version of a library's package, without Debian's parts."""
    shown = subprocess.run(["dpkg-query", "-W", "-f", "${Version}", LIBRARIES[name][0]], capture_output=True, text=True, check=True)
    return shown.stdout.split(":")[-1].split("-")[0]


def run(work, name, mode, lines):
    """What a driver prints for lines."""
    program = LIBRARIES[name][1]
    command = [str(work / program), mode] if program else ["/usr/bin/python3", str(HERE / "dnspython_peer.py"), mode]
    ran = subprocess.run(command, input="".join(line + "\n" for line in lines), capture_output=True, text=True, check=True)
    return ran.stdout.splitlines()


def asked(work, name, mode, lines):
    """A library's answers for lines: octets in hexadecimal digits, `rejected` or `unknown`, and the reason."""
    answers = [line.split("\t", 1) for line in run(work, name, mode, lines)]
    assert len(answers) == len(lines), (name, mode, len(answers), len(lines))
    return [(more if state == "accepted" else state, more) for state, more in answers]


def table(name):
    """The comments in front of a file, and its rows."""
    lines = (HERE / name).read_text(encoding="utf-8").splitlines()
    return [line for line in lines if line.startswith("#")], [line.split("\t") for line in lines if line and not line.startswith("#")]


def write(name, comments, rows):
    """Writes a file."""
    (HERE / name).write_text("".join(line + "\n" for line in comments + ["\t".join(row) for row in rows]), encoding="utf-8")


def versions():
    """The line of a file's comments that tells the versions."""
    return "# Versions: " + ", ".join(f"{name} {version(name)}" for name in LIBRARIES) + "."


def with_versions(comments):
    """The comments with the versions of today."""
    return [versions() if line.startswith("# Versions: ") else line for line in comments]


def texts(work):
    """Asks about texts.tsv."""
    comments, rows = table("texts.tsv")
    answers = [asked(work, name, "text", [f"{row[0]}\t{row[3]}" for row in rows]) for name in LIBRARIES]
    for i, row in enumerate(rows):
        found = [{"rejected": "refused"}.get(answer[i][0], answer[i][0]) for answer in answers]
        row[5:] = ["=" if it == row[4] else it for it in found]
    write("texts.tsv", with_versions(comments), rows)


def octets(work):
    """Asks about octets.tsv."""
    comments, rows = table("octets.tsv")
    lines = [f"{row[0]} {row[3]} {row[4]} {row[2]}" for row in rows]
    answers = [asked(work, name, "wire", lines) for name in ("BIND", "ldns")]
    for i, row in enumerate(rows):
        found = ["ok" if answer[i][0] not in ("rejected", "unknown") else answer[i][0] for answer in answers]
        row[6:] = ["=" if it == row[5] else it for it in found]
    write("octets.tsv", with_versions(comments), rows)


def printed(work):
    """Writes printed.tsv: what libraries print of RDATA, if BIND reads that text as the very octets."""
    comments, _ = table("printed.tsv")
    cases = {(row[0], row[4]): None for row in table("texts.tsv")[1] if row[4] not in ("refused", "-")}
    cases |= {(row[0], row[2][2 * int(row[3]) :]): None for row in table("octets.tsv")[1] if row[5] == "ok" and 0 < int(row[4]) <= 64}
    head = bytes.fromhex(table("octets.tsv")[1][0][2])[:30].hex()
    lines = [f"{kind} 40 {len(it) // 2} {head}{int(kind):04x}000100000e10{len(it) // 2:04x}{it}" for kind, it in cases]
    names = {row[0]: row[1] for row in table("texts.tsv")[1]}
    rows, seen = [], set()
    for name in LIBRARIES:
        texts_of = [(text.replace("\t", " "), more) for text, more in asked(work, name, "print", lines)]
        read = asked(work, "BIND", "text", [f"{kind}\t{text[0]}" for (kind, _), text in zip(cases, texts_of)])
        for (kind, octets_here), text, again in zip(cases, texts_of, read):
            if again[0] == octets_here and (kind, text[0]) not in seen and not text[0].startswith("\\#"):
                seen.add((kind, text[0]))
                rows.append([kind, names[kind], octets_here, name, text[0]])
    rows.sort(key=lambda row: int(row[0]))
    write("printed.tsv", with_versions(comments), rows)


def canonical(work):
    """Writes canonical.tsv: what DNSSEC signs of RDATA whose names have capitals."""
    # pylint: disable=import-outside-toplevel
    import model
    import signatures

    comments, _ = table("canonical.tsv")
    cases = {}
    for kind, name, _, _, octets_here, *_ in table("texts.tsv")[1]:
        if int(kind) in model.TYPES and octets_here not in ("refused", "-"):
            found = bytes.fromhex(octets_here)
            fields = model.read(int(kind), found, 0, len(found))[0]
            capitals = b"".join(model.wire(it, signatures.in_capitals(value)) for _, it, value in fields)
            if any(it in ("name", "uname", "names") for _, it, _ in fields) and len(capitals) < 200:
                cases[kind, capitals.hex()] = name
    head = bytes.fromhex(table("octets.tsv")[1][0][2])[:30].hex()
    lines = [f"{kind} 40 {len(it) // 2} {head}{int(kind):04x}000100000e10{len(it) // 2:04x}{it}" for kind, it in cases]
    answers = [asked(work, name, "digest", lines) for name in ("BIND", "dnspython")]
    rows = []
    for i, ((kind, octets_here), name) in enumerate(cases.items()):
        wanted = signatures.canonical(int(kind), bytes.fromhex(octets_here)).hex()
        rows.append([kind, name, octets_here, wanted, *("=" if it[i][0] == wanted else it[i][0] for it in answers)])
    write("canonical.tsv", with_versions(comments), rows)


def messages(work):
    """Asks about messages.tsv: each record as a library prints it, with ` | ` between two. BIND must have the octets that are wanted."""
    comments, rows = table("messages.tsv")
    shown = {}
    for name in ("ldns", "miekg/dns"):
        found, parts = [], []
        for line in run(work, name, "show", [row[1] for row in rows]):
            if line:
                parts.append(" ".join(line.split()))
            else:
                found.append(parts)
                parts = []
        shown[name] = found
        assert len(found) == len(rows), (name, len(found), len(rows))
    for row in rows:
        message = bytes.fromhex(row[1])
        records = [entry for entry in plain_table.entries(message)[0] if entry.section != "question"]
        found = asked(work, "BIND", "wire", [f"{entry.kind} {entry.place} {entry.length} {row[1]}" for entry in records])
        wanted = [one.split(":")[1] for one in row[2].split()]
        assert [answer[0] for answer in found] == wanted, ("BIND has other octets", row[0], found)
    for i, row in enumerate(rows):
        row[3:] = [" | ".join(shown[name][i]) for name in shown]
    write("messages.tsv", with_versions(comments), rows)


def main():
    work = pathlib.Path(sys.argv[1]).resolve()
    for word in sys.argv[2:]:
        {"texts": texts, "octets": octets, "printed": printed, "canonical": canonical, "messages": messages}[word](work)


if __name__ == "__main__":
    main()
