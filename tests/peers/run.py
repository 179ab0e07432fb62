#!/usr/bin/env python3
"""Runs this library and others over the octets of octets.tsv, and writes what they return into answers.tsv.

    tests/peers/run.py WORK_DIR [LIBRARY ..]     those that are named, or all that are built; the lines of the others stay

`build.sh WORK_DIR` builds the drivers first. The gate does not run this: it holds docs/DIFFERENCES.md to answers.tsv, and this
library to its lines of it (tools/differences.py).

A driver reads lines `TYPE PLACE LENGTH OCTETS` from standard input: numbers in decimal, and a message in hexadecimal digits. The
RDATA is at PLACE, and right before it are the eleven octets of a header with the root as owner, class IN and TTL 3600. Its line for
each is `accepted` and the uncompressed octets that the library gives back (`-` for none), or `rejected` and the reason; a tab is
between the two.
"""
import pathlib
import subprocess
import sys

HERE = pathlib.Path(__file__).resolve().parent
TOP = HERE.parent.parent
sys.path.insert(0, str(TOP / "tools"))
import differences  # noqa: E402

# The libraries, as the page names them: the Debian package whose version is told, and the command.
LIBRARIES = {
    "hickory": (None, ["hickory"]),
    "BIND": ("bind9-dev", ["bind"]),
    "Knot DNS": ("libknot-dev", ["knot"]),
    "ldns": ("libldns-dev", ["ldns"]),
    "dnspython": ("python3-dnspython", ["/usr/bin/python3", str(HERE / "dnspython_peer.py")]),
    "miekg/dns": ("golang-github-miekg-dns-dev", ["miekg"]),
}
HICKORY = "0.26.3"


def version(package):
    if package is None:
        return HICKORY
    shown = subprocess.run(["dpkg-query", "-W", "-f", "${Version}", package], capture_output=True, text=True, check=True).stdout
    return shown.split(":")[-1].split("-")[0]


def asked(command, cases):
    lines = "".join(f"{case.type} {case.place} {len(case.rdata)} {case.message.hex()}\n" for case in cases)
    ran = subprocess.run(command, input=lines, capture_output=True, text=True, check=True)
    answers = [line.split("\t") for line in ran.stdout.splitlines()]
    assert len(answers) == len(cases), (command, len(answers), len(cases), ran.stderr)
    return answers


def main():
    work, wanted = pathlib.Path(sys.argv[1]).resolve(), sys.argv[2:] or list(LIBRARIES)
    cases = differences.cases()
    kept = {key: answer for key, answer in differences.answers().items() if key[1] not in wanted and key[1] != differences.OURS}
    for name in wanted:
        package, command = LIBRARIES[name]
        if command[0] != "/usr/bin/python3":
            command = [str(work / command[0])]
        for case, (state, more) in zip(cases, asked(command, cases)):
            kept[case.key, name] = (version(package), state, more)
    for case, (state, more) in zip(cases, differences.ours(cases)):
        kept[case.key, differences.OURS] = ("-", state, more)
    differences.write_answers(cases, [differences.OURS, *LIBRARIES], kept)


if __name__ == "__main__":
    main()
