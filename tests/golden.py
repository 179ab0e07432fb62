#!/usr/bin/env python3
"""Golden tests, by programs in which nothing is proved (tests/programs), and whether these tests can fail.

    tests/golden.py [--checked]

The program `rdata_replay` must print for its files what is stored in its `stdout`. Then it gets files of one line: a right one, and
lines with another call, another octet that is wanted, or a field too few or too many, which must each show as a line that is printed
and a count that is one less. A file that is missing must show as an exit status. The benchmark must measure each line of its samples.
With --checked the programs have the checks and the address sanitizer of `rt try`, which is for sources that were not proved. The last
line is 'N as wanted, M not'.
"""
import pathlib
import re
import subprocess
import sys
import tempfile

TOP = pathlib.Path(__file__).resolve().parent.parent
REPLAY, BENCH = TOP / "tests/programs/rdata_replay", TOP / "tests/programs/rdata_bench"


def built(names, flags):
    """The paths of programs, which are built where they are not up to date."""
    done = subprocess.run([TOP / "tests/programs/build.sh", *flags, *names], stdout=subprocess.PIPE, text=True)
    return done.stdout.split("\n")[:-1] if done.returncode == 0 else None


def ran(program, folder, words=(), given=b""):
    """The output of a program in a folder, and its exit status."""
    done = subprocess.run([program, *words], cwd=folder, input=given, stdout=subprocess.PIPE, stderr=subprocess.PIPE)
    return done.stdout.decode(), done.returncode


def with_octet_changed(line):
    """The line with the last hexadecimal digit of what is wanted changed."""
    fields = line.split("\t")
    found = re.search(r"[0-9a-f](?=[^0-9a-f]*$)", fields[1])
    digit = "1" if found[0] == "0" else "0"
    fields[1] = fields[1][: found.start()] + digit + fields[1][found.end() :]
    return "\t".join(fields)


def lines_of(name, line):
    """Files of one line or a few, and how many of them are as wanted."""
    yield "a right line", line, 1
    yield "a comment and an empty line", f"# a comment\n\n{line}\n\n{line}", 2
    yield "another octet is wanted", with_octet_changed(line), 0
    yield "a field too few", line.rsplit("\t", 1)[0], 0
    yield "a field too many", f"{line}\t0a", 0
    yield "a last field that says nothing", line.rsplit("\t", 1)[0] + "\t0g", 0
    if name in ("calls.tsv", "wire.tsv"):
        yield "a call that is not there", "no_such_call\t" + line.split("\t", 1)[1], 0


def is_told(output, name, text, count):
    """Whether the count of a file is this one, and each line that is not as wanted is printed."""
    wrong = sum(bool(line) and not line.startswith("#") for line in text.split("\n")) - count
    told = len(re.findall(r"^not (?:as wanted|known): ", output, re.MULTILINE))
    return f"{name}: {count} as wanted\n" in output and told == wrong


def replayed(program):
    """What is tried of the golden tests, whether it is as wanted, and what came."""
    wanted = (REPLAY / "stdout").read_text()
    files = {file.name: file.read_text() for file in sorted((REPLAY / "data").iterdir())}
    came = ran(program, REPLAY / "data")
    yield "the stored output", came == (wanted, 0), came
    yield "each file in the stored output", sorted(re.findall(r"(?m)^(\S+): \d+ as wanted$", wanted)) == sorted(files), wanted
    with tempfile.TemporaryDirectory() as place:
        folder = pathlib.Path(place)
        for name in files:
            (folder / name).write_text("")
        for name, whole in files.items():
            lines = [it for it in whole.split("\n") if it and not it.startswith("#")]
            line = next(it for it in lines if it.count("\t") > 1 and re.search(r"[0-9a-f]{2}", it.split("\t")[1]))
            for what, text, count in lines_of(name, line):
                (folder / name).write_text(text)
                output, status = ran(program, folder)
                yield f"{name}: {what}", status == 0 and is_told(output, name, text, count), (output[-300:], status)
            (folder / name).unlink()
            output, status = ran(program, folder)
            yield f"{name} is missing", status != 0, (output[-300:], status)
            (folder / name).write_text("")


def measured(program):
    """Whether the benchmark measures each line of its samples."""
    for words, name in ((["8"], "samples.txt"), (["views", "8"], "samples.txt"), (["parse", "1"], "texts.txt"), (["parse", "1"], "zone_texts.txt")):
        given = (BENCH / "data" / name).read_bytes()
        output, status = ran(program, BENCH, words, given)
        yield f"rdata_bench {' '.join(words)} on {name}", status == 0 and output.count("\n") == given.count(b"\n") + 1, (output[-300:], status)


def main():
    programs = built(["rdata_replay", "rdata_bench"], sys.argv[1:])
    if not programs:
        print("not as wanted: the programs of tests/programs are not built\n0 as wanted, 1 not")
        return 1
    good = bad = 0
    for what, holds, came in [*replayed(programs[0]), *measured(programs[1])]:
        good, bad = good + holds, bad + (not holds)
        if not holds:
            print(f"not as wanted: {what}: {came}")
    print(f"{good} as wanted, {bad} not")
    return bad != 0


if __name__ == "__main__":
    sys.exit(main())
