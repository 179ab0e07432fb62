"""Reads RDATA of every type by the format of its RFC, and compares with the reference model of tests/registry (`model.py`).

- Each case of octets.tsv: accepted or rejected as it is wanted there, and of RDATA that is accepted the fields, their names and the
  uncompressed octets are the model's.
- The same for the octets of texts.tsv and printed.tsv, which other libraries gave for texts, for each record of the signed zones and of
  messages.tsv; and for the cases of octets.tsv and messages.tsv with one octet changed, cut off or added at the end.

OPT, SVCB and HTTPS have no cases here (OTHER_RULES). The program is `registry_replay` of tests/programs, in
which nothing is proved. The last line is 'N as wanted, M not'.
"""

import pathlib
import subprocess
import sys

TOP = pathlib.Path(__file__).resolve().parent.parent
sys.path.insert(0, str(TOP / "tests/registry"))
import counted  # noqa: E402
import model  # noqa: E402
import plain_table  # noqa: E402

# The model knows no values of options and of parameters.
OTHER_RULES = {41, 64, 65}


def shown(kind, value):
    """A field as the program prints it."""
    if isinstance(value, int):
        return str(value) if kind not in ("u48", "u64") else value.to_bytes(int(kind[1:]) // 8, "big").hex()
    return (value.whole() if isinstance(value, plain_table.Name) else b"".join(model.wire("string", it) for it in value) if isinstance(value, list) else value).hex() or "-"


def line_of(kind, message, offset, length):
    """What the program prints for RDATA; None where it is rejected."""
    found = model.read(kind, message, offset, length)
    if found is None:
        return None
    fields, octets = found
    if kind == 55:
        # One field of `dns_registry`, and so are the ends of TKEY and TSIG.
        fields = [("identity", "rest", octets)]
    if kind in (249, 250):
        size = {249: 5, 250: 3}[kind]
        end = b"".join(model.wire(base, value) for _, base, value in fields[size:])
        fields = [*fields[:size], ("key_and_other" if kind == 249 else "mac_and_other", "rest", end)]
    if kind == 25 and fields[-1][2] == b"":
        # Without a key there is no such field.
        fields = fields[:-1]
    return " ".join([*(f"{label}={shown(base, value)}" for label, base, value in fields), octets.hex() or "-"])


def worked_out():
    """RDATA worked out from the RFCs, and that of messages: type, message, offset, RDLENGTH."""
    for kind, _, message, offset, length, *_ in model.table("octets.tsv"):
        yield int(kind), model.octets_of(message), int(offset), int(length)
    for _, message, *_ in model.table("messages.tsv"):
        message = model.octets_of(message)
        for entry in plain_table.entries(message)[0]:
            if entry.section != "question":
                yield entry.kind, message, entry.place, entry.length


def samples():
    """RDATA of other programs: type, message, offset, RDLENGTH."""
    for kind, _, _, _, octets, *_ in model.table("texts.tsv"):
        if octets != "refused":
            octets = model.octets_of(octets)
            yield int(kind), octets, 0, len(octets)
    for kind, _, octets, *_ in model.table("printed.tsv"):
        octets = model.octets_of(octets)
        yield int(kind), octets, 0, len(octets)
    numbers = model.type_numbers()
    for file in sorted((model.HERE / "signed").glob("*.tsv")):
        for line, octets in model.table(f"signed/{file.name}"):
            name, octets = line.split(" ")[3], model.octets_of(octets)
            yield numbers.get(name) or int(name[4:]), octets, 0, len(octets)


def changed(kind, message, offset, length):
    """The same RDATA, and with an octet changed, cut off or added."""
    yield kind, message, offset, length
    if length:
        yield kind, message, offset, length - 1
        yield kind, message[: offset + length - 1], offset, length
    yield kind, message[: offset + length] + b"\0" + message[offset + length :], offset, length + 1
    for at in range(offset, min(offset + length, offset + 24)):
        for octet in {0, 255, message[at] ^ 1, message[at] ^ 128}:
            yield kind, message[:at] + bytes([octet]) + message[at + 1 :], offset, length


def main():
    """Runs the program over all cases, and compares."""
    program = subprocess.run([TOP / "tests/programs/build.sh", "registry_replay"], capture_output=True, text=True, check=True).stdout.strip()
    cases = []
    for sample in dict.fromkeys(worked_out()):
        cases += changed(*sample)
    cases += samples()
    cases = [it for it in cases if it[0] in model.TYPES and it[0] not in OTHER_RULES]
    cases = list(dict.fromkeys(cases))
    text = "".join(f"{kind} {offset} {length} {message.hex() or '-'}\n" for kind, message, offset, length in cases)
    ran = subprocess.run([program], input=text, capture_output=True, text=True, check=False)
    lines = ran.stdout.splitlines()
    counts = model.Counts()
    counts.add(ran.returncode == 0 and len(lines) == len(cases), f"registry_replay ended with {ran.returncode} after {len(lines)} of {len(cases)} lines", ran.stderr[-300:])
    for case, line in zip(cases, lines):
        wanted = line_of(*case)
        holds = line == wanted if wanted is not None else line.startswith("rejected: ")
        counts.add(holds, case[0], case[1].hex(), *case[2:], "wanted", wanted or "rejected", "and not", line)
    counted.note("registry", len(cases))
    print(f"{counts.passed} as wanted, {counts.failed} not")
    return counts.failed


if __name__ == "__main__":
    sys.exit(1 if main() else 0)
