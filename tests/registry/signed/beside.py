"""Writes lines of `named-compilezone -s full` with a tab and the RDATA behind each, as BIND reads its text: beside.py BIND LINES"""
import pathlib
import subprocess
import sys

HERE = pathlib.Path(__file__).resolve().parent
NUMBERS = dict(line.split("\t") for line in (HERE.parent.parent / "type_names.tsv").read_text().splitlines() if line[0] != "#")


def main():
    """See above."""
    lines = pathlib.Path(sys.argv[2]).read_text(encoding="utf-8").splitlines()
    lines = [" ".join(line.split(None, 4)) for line in lines if not line.startswith(";")]
    asked = []
    for line in lines:
        _, _, _, kind, text = line.split(" ", 4)
        asked.append(f"{NUMBERS.get(kind) or kind[4:]}\t{text}\n")
    ran = subprocess.run([sys.argv[1], "text"], input="".join(asked), capture_output=True, text=True, check=True)
    answers = [answer.split("\t") for answer in ran.stdout.splitlines()]
    assert len(answers) == len(lines)
    for line, (state, octets) in zip(lines, answers):
        if state == "unknown":
            # The form of RFC 3597, section 5.
            octets = line.split(" \\# ", 1)[1].split(" ", 1)[1].replace(" ", "").lower()
        assert state != "rejected", (line, octets)
        print(f"{line}\t{octets}")


if __name__ == "__main__":
    main()
