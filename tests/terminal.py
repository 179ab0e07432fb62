#!/usr/bin/env python3
"""What the program `rdata` tells people: control characters on a terminal, reasons, a word that is left out, output that fails.

    tests/terminal.py [PROGRAM]

PROGRAM is the built crates/rdata/out/rdata if none is given. Everything of the result is on standard output, and what is told beside it
on standard error. The last line is 'N as wanted, M not'.
"""
import os
import pathlib
import pty
import subprocess
import sys

TOP = pathlib.Path(__file__).resolve().parent.parent

# An escape sequence that clears a terminal; a line feed and a line of a result; U+009B, which some terminals take for `ESC [`.
CLEAR, FORGED, CSI = ["read", "TXT", "0", "5", "041b5b324a"], ["read", "TXT", "0", "8", "0761" "0a" "746578" "74" "20"], ["read", "TXT", "0", "3", "02c29b"]
REPORT = "type 16\ntext {0}\ncanonical {1}\nemitted {1}\n"


def piped(program, words):
    """Status, standard output and standard error of a run into pipes."""
    done = subprocess.run([program, *words], stdin=subprocess.DEVNULL, stdout=subprocess.PIPE, stderr=subprocess.PIPE)
    return done.returncode, done.stdout.decode(), done.stderr.decode()


def shown(program, words):
    """What a run writes to a terminal."""
    master, slave = pty.openpty()
    done = subprocess.run([program, *words], stdin=subprocess.DEVNULL, stdout=slave, stderr=subprocess.DEVNULL)
    os.close(slave)
    found = b""
    while True:
        try:
            part = os.read(master, 65536)
        except OSError:
            break
        if not part:
            break
        found += part
    os.close(master)
    return done.returncode, found.decode().replace("\r\n", "\n")


def to_full(program, words):
    """Status and standard error of a run whose output cannot be written."""
    with open("/dev/full", "wb") as full:
        done = subprocess.run([program, *words], stdin=subprocess.DEVNULL, stdout=full, stderr=subprocess.PIPE)
    return done.returncode, done.stderr.decode()


def cases(program):
    yield "control characters in a pipe", piped(program, CLEAR), (0, REPORT.format("\x1b[2J", "041b5b324a"), "")
    yield "control characters on a terminal", shown(program, CLEAR), (0, REPORT.format("\\x1b[2J", "041b5b324a"))
    yield "a line feed on a terminal", shown(program, FORGED), (0, REPORT.format("a\\x0atext ", "07610a7465787420"))
    yield "a control character past ASCII on a terminal", shown(program, CSI), (0, REPORT.format("\\x9b", "02c29b"))
    yield "an order on a terminal", shown(program, ["cmp", "A", "01020304", "01020305"]), (0, "less\n")
    yield "other words on a terminal", shown(program, ["read"]), (2, "usage\n")
    yield "a reason", piped(program, ["read", "A", "0", "5", "0102030405"]), (1, "refused\n", "incorrect length of record data: read 4, length 5\n")
    yield "the reason of an order", piped(program, ["cmp", "A", "01020304", "010203"]), (1, "refused\n", "unexpected end of input\n")
    yield "the reason of a text", piped(program, ["parse", "MX", "x a."]), (1, "refused\n", "Invalid digit found in MX preference token\n")
    mx = "type 15\ntext 10 a.\ncanonical 000a016100\nemitted 000a016100\n"
    yield "a word that is left out", piped(program, ["parse", "MX", "10 a. extra"]), (0, mx, "rdata: the last word of the text changes nothing\n")
    yield "no word that is left out", piped(program, ["parse", "MX", "10 a."]), (0, mx, "")
    yield "a list that takes all words", piped(program, ["parse", "TXT", "a b"])[2], ""
    yield "output that fails", to_full(program, ["read", "A", "0", "4", "01020304"]), (4, "rdata: the result cannot be written\n")


def main(program):
    good = bad = 0
    for what, came, wanted in cases(program):
        good, bad = good + (came == wanted), bad + (came != wanted)
        if came != wanted:
            print(f"not as wanted: {what}: {came} and not {wanted}")
    print(f"{good} as wanted, {bad} not")
    return bad != 0


if __name__ == "__main__":
    sys.exit(main(sys.argv[1] if len(sys.argv) > 1 else str(TOP / "crates/rdata/out/rdata")))
