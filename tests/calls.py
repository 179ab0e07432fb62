"""Makes calls of the library one by one, with requests for memory refused and with too little space.

The calls are those of tests/calls.txt, on the data of all replayed runs and on words of their own. The program
(`rdata_replay` of tests/programs) makes each between two marks, and tests/requests.c counts and refuses what is asked for between them:

1. Each request of a call and all later ones are refused, and each alone, until a run meets no refusal. The call answers want
   of memory, and what it was given stands; refused alone it may also give its full answer.
2. A call that takes no memory makes no request, and answers the same with every request refused.
3. `emit` in each mode, into a fresh encoder and behind earlier octets, with an octet less than it needs: buffer space is
   refused, and the earlier octets stand. With exactly as many it succeeds.

The number of cases of each kind is printed. The last line is 'N as wanted, M not'. The arguments are the program and the
counter of requests; without them both are built.
"""

import collections
import concurrent.futures
import itertools
import os
import pathlib
import re
import subprocess
import sys
import tempfile

import counted
from damaged import ROWS, TOP, escaped, plain

MODES, STARTS = ("standard", "canonical", "other"), ("fresh", "behind")
# Memory for any text and any message, and the octets that an encoder may have.
ROOM, SPACE = 300000, 65535

# Values of which each two are ordered as here: by canonical octets, and by the type's number where those are the same.
ORDERED = [
    *("parse:A:0.0.0.0", "parse:AAAA:::", "parse:SRV:1 2 3 www.example.com", "parse:MX:256 n"),
    *(f"parse:{kind}:www.example.com" for kind in ("NS", "CNAME", "PTR")),
    *("soa:www.example.com xxx.example.com", 'parse:TXT:abcdef ghi "" j'),
]

# The calls that change a record, which stands as it was if they fail, and the record's type. The first word is its octets.
CHANGED = {
    **dict.fromkeys(("set_issuer_value", "set_iodef_value"), "CAA"),
    **dict.fromkeys(("insert", "get_all", "OPT::replace"), "OPT"),
    **dict.fromkeys(("SVCB::insert", "SVCB::insert_as"), "SVCB"),
}

# A call: what memory it takes, its words, and the answer that is wanted with ample memory, where one is known.
Call = collections.namedtuple("Call", "memory name words wanted")


def told(output, name):
    """What stands behind the name of a line in the output of a replayed run; nothing for a dash."""
    found = re.search(rf"^{name} (.*)$", output, re.MULTILINE)
    return found and ("" if found[1] == "-" else found[1])


def rows():
    """The status, output and words of each replayed run."""
    for name in ("rows.tsv", "real.tsv"):
        for line in (ROWS / "data" / name).read_bytes().decode().split("\n"):
            fields = [plain(field) for field in line.split("\t")]
            if len(fields) > 3 and not line.startswith("#"):
                yield fields[0], fields[1], fields[2:]


def long_lists():
    """OPT of many options without octets, in rising, falling and mixed order."""
    for count in (40, 1100):
        rising = [(100 + code).to_bytes(2, "big") + b"\0\0" for code in range(count)]
        for options in (rising, rising[::-1], rising[::2] + rising[1::2]):
            yield "41", "none", b"".join(rising), b"".join(options)


def long_name():
    """An alias of more labels than are remembered without memory."""
    octets = b"".join(b"\x01" + bytes([letter]) for letter in b"abcdefghijklmnop") + b"\0"
    return "5", "a.b.c.d.e.f.g.h.i.j.k.l.m.n.o.p.", octets, octets


class Samples:
    """What the replayed runs read and parse, and the values of those that do, each with type, output and text, if known."""

    def __init__(self):
        self.reads, self.texts, self.values = {}, {}, {}
        for status, output, words in rows():
            if words[0] == "read" and status in "01" and len(words) == 5:
                given = " ".join([*words[1:4], words[4].strip("-")])
                self.reads[given] = (words[1], status)
                if status == "0":
                    self.values[given] = (told(output, "type"), output, told(output, "text"))
            elif words[0] == "parse" and status in "01" and len(words) == 3:
                self.texts[words[1], words[2]] = (words[1], status)
                octets = told(output, "emitted") if status == "0" else None
                if octets not in (None, "none"):
                    kind = told(output, "type")
                    # What words give may print otherwise than what their octets give, as a name without its end.
                    self.values.setdefault(f"{kind} 0 {len(octets) // 2} {octets}", (kind, output, None))
        for kind, text, canonical, octets in (*long_lists(), long_name()):
            output = f"type {kind}\ntext {text}\ncanonical {canonical.hex()}\nemitted {octets.hex()}\n"
            self.values[f"{kind} 0 {len(octets)} {octets.hex()}"] = (kind, output, text)


def wanted_of(call, value):
    """What a call answers of a value by its replayed run, where that says it. OPT has no text."""
    kind, output, text = value
    canonical = told(output, "canonical")
    is_known = text is not None and text.isascii() and kind != "41"
    return {
        "canonical_octets": f"Ok(()) {canonical}",
        "octet_at": f"Ok(()) {canonical[:600]}",
        "copy_to": f"Ok(()) {canonical}",
        "is_emittable": "true",
        "print": 'false ""' if kind == "41" else f"true {debug_text(text)}" if is_known else None,
        "to_string": "Err(Memory) of" if kind == "41" else f"Ok({debug_text(text)}) of" if is_known else None,
    }.get(call)


def wanted_of_pair(call, left, right):
    """What a call answers of two values by the types and canonical octets of their replayed runs."""
    (kind, octets), (other, behind) = ((value[0], bytes.fromhex(told(value[1], "canonical"))) for value in (left, right))
    order = "Less" if octets < behind else "Greater" if octets > behind else "Equal"
    return {
        "eq": 'true' if (kind, octets) == (other, behind) else 'false',
        "cmp": order if kind == other or order != "Equal" else None,
        "partial_cmp": f"Some({order})" if kind == other or order != "Equal" else None,
        "compare": order,
    }.get(call)


def wanted_in_order(call, is_less):
    """What a call answers of two values of which the first is less, or the second."""
    order = "Less" if is_less else "Greater"
    return {"eq": "false", "cmp": order, "partial_cmp": f"Some({order})"}.get(call)


def debug_text(text):
    """An ASCII text as `Debug` prints it."""
    return '"' + text.replace("\\", "\\\\").replace('"', '\\"').replace("\t", "\\t") + '"'


def emit_call(memory, mode, start, value, output, free=SPACE):
    """A call of `emit`. Standard records in a fresh encoder have the octets of the replayed run."""
    octets = told(output, "emitted")
    wanted = f"Ok(()) 0 {len(octets) // 2} StandardRecord {octets}" if (mode, start, free) == ("standard", "fresh", SPACE) else None
    return Call(memory, "emit", (mode, start, str(ROOM if memory == "none" else 0), str(free), value), wanted)


def starts_of(output):
    """Where a value is emitted: behind itself only where both have room."""
    return STARTS if 2 * (len(told(output, "emitted")) // 2) < SPACE - 100 else STARTS[:1]


def calls_on(memory, name, where, types, samples):
    """The calls of a line of the table whose words are those of the replayed runs."""
    if where in ("@texts", "@words"):
        for (kind, text), (_, status) in samples.texts.items():
            if not types or kind in types:
                yield Call(memory, name, (kind, text), None)
        return
    if where == "@ordered":
        for left, right in itertools.permutations(range(len(ORDERED)), 2):
            yield Call(memory, name, (ORDERED[left], ORDERED[right]), wanted_in_order(name, left < right))
        return
    if where == "@reads":
        for given, (kind, status) in samples.reads.items():
            if not types or kind in types:
                yield Call(memory, name, (given,), None)
        return
    values = [value for value in samples.values if not types or value.split(" ")[0] in types]
    for number, value in enumerate(values):
        wanted = wanted_of(name, samples.values[value])
        if where == "@pairs":
            for other in dict.fromkeys([value, *values[number + 1 : number + 4]]):
                wanted = wanted_of_pair(name, samples.values[value], samples.values[other])
                yield Call(memory, name, (value, other), wanted)
        elif name == "print":
            yield Call(memory, name, (str(ROOM if memory == "none" else 0), value), wanted)
        elif name == "emit":
            # The modes in which names are whole take no memory but the octets'.
            output = samples.values[value][1]
            for mode, start in itertools.product(MODES[1:2] if memory == "none" else MODES, starts_of(output)):
                yield emit_call(memory, mode, start, value, output)
        elif name in ("record_type", "ip_addr", "iter", "get", "getters", "try_borrow", "target", "is_emittable"):
            yield Call(memory, name, (value, value), wanted)
        else:
            yield Call(memory, name, (value,), wanted)


def calls_of_table(samples):
    """All calls of the table."""
    for line in (TOP / "tests/calls.txt").read_text().split("\n"):
        if line and not line.startswith("#"):
            memory, name, wanted, *words = line.split("\t")
            if words[0].startswith("@"):
                where, *types = words[0].split(" ")
                yield from calls_on(memory, name, where, types, samples)
            else:
                yield Call(memory, name, tuple(words), wanted)


def line_of(run):
    """The line that asks for a run: what is written before it, and the call."""
    begin, call = run
    return "\t".join(map(escaped, [f"requests {begin}\n", call.name, *call.words])) + "\n"


def part_of_answers(program, counter, runs):
    """The requests and the answer of each run, by one process."""
    environment = {"LD_PRELOAD": counter, "REQUESTS_MARKED": "1"}
    done = subprocess.run([program, "marked"], input="".join(map(line_of, runs)).encode(), stdout=subprocess.PIPE, env=environment)
    lines = done.stdout.decode(errors="replace").split("\n")[:-1]
    answers = list(zip(lines[::2], lines[1::2]))
    return answers + [("-", f"no answer, status {done.returncode}")] * (len(runs) - len(answers))


class Machine:
    """Answers runs, by as many processes as there are processors."""

    def __init__(self, program, counter):
        self.program, self.counter = program, counter

    def answers(self, runs):
        """The requests and the answer of each run."""
        size = 1 + len(runs) // (4 * os.cpu_count())
        parts = [runs[first : first + size] for first in range(0, len(runs), size)]
        with concurrent.futures.ThreadPoolExecutor(os.cpu_count()) as pool:
            found = pool.map(lambda part: part_of_answers(self.program, self.counter, part), parts)
            return list(itertools.chain(*found))


class Counts:
    """The cases of each kind that are as wanted, and the texts of those that are not."""

    def __init__(self):
        self.good, self.bad = collections.Counter(), []

    def add(self, kind, name, holds, *texts):
        """Counts a case of a call."""
        if holds:
            self.good[kind, name] += 1
        else:
            self.bad.append(f"{kind}, {name}: " + " | ".join(str(text)[:400] for text in texts))

    def show(self):
        """Prints the counts."""
        for text in self.bad[:20]:
            print("not as wanted:", text)
        for kind in dict.fromkeys(kind for kind, _ in self.good):
            of_kind = {name: count for (found, name), count in self.good.items() if found == kind}
            print(f"{kind}: {sum(of_kind.values())} (" + ", ".join(f"{name} {count}" for name, count in of_kind.items()) + ")")
        print(f"{sum(self.good.values())} as wanted, {len(self.bad)} not")


def emitted(text):
    """The answer of `emit`, the numbers of octets before and behind it, the mode, and the octets."""
    found = re.fullmatch(r"(.*) (\d+) (\d+) (\w+) ([0-9a-f]*)", text)
    return found and (found[1], int(found[2]), int(found[3]), found[4], found[5])


def is_stopped(text, full, why):
    """Whether `emit` was refused, the earlier octets stand, as many octets as are told, and the mode."""
    came, ample = emitted(text), emitted(full)
    if not came or not ample:
        return False
    answer, start, end, mode, octets = came
    return (
        answer == f"Err({why})"
        and (start, mode) == (ample[1], ample[3])
        and start <= end <= ample[2]
        and len(octets) == 2 * end
        and octets[: 2 * start] == ample[4][: 2 * start]
    )


def is_want_of_memory(call, text, full, debug):
    """Whether an answer is want of memory, and what the call was given stands."""
    if call.name == "read":
        _, place, _, message = call.words[0].split(" ")
        index, rest, why = text.split(" ", 2)
        return why == "Memory" and int(place) <= int(index) and 2 * int(index) <= len(message) and rest == message[2 * int(index) :]
    if call.name in ("clone", "to_rdata"):
        return text == "AllocError of" + full.split(" of", 1)[1]
    if call.name in ("to_string", "cert_base64"):
        return text == "Err(Memory) of" + full.split(" of", 1)[1]
    if call.name == "print":
        return text.startswith('false "') and full[len('true "') :].startswith(text[len('false "') : -1])
    if call.name == "emit":
        return is_stopped(text, full, "Memory")
    if call.name in ("from_tokens", "try_from_str", "try_from_str_with_origin"):
        return text == "Memory"
    if call.name in CHANGED:
        before = debug[CHANGED[call.name], call.words[0]]
        return text in (f"Err(Memory) {before}", f"Err(AllocError) {before}")
    return text in ("Err(Memory)", "Err(AllocError)")


def debug_texts(machine):
    """What `Debug` prints of the values of all octets that the table names."""
    text = (TOP / "tests/calls.txt").read_text()
    asked = {tuple(found) for found in re.findall(r"\{([A-Z]+) ([0-9a-f]+)\}", text)}
    for name, digits in re.findall(r"^\w+\t([\w:]+)\t[^\t]*\t([0-9a-f]+)", text, re.MULTILINE):
        if name in CHANGED:
            asked.add((CHANGED[name], digits))
    asked = sorted(asked)
    calls = [Call("perhaps", "read", (f"{kind} 0 {len(digits) // 2} {digits}",), None) for kind, digits in asked]
    answers = machine.answers([("from 0", call) for call in calls])
    # behind the place, and without the variant of the type
    return {key: text.split(" ", 2)[2].removeprefix(f"{key[0]}(")[:-1] for key, (_, text) in zip(asked, answers)}


def is_wanted(call, text, samples, debug):
    """Whether the answer with ample memory is the wanted one, as far as it is known."""
    wanted = call.wanted
    if text.startswith("not called") or text.startswith("no answer"):
        return False
    if call.name == "read":
        kind, place, length, message = call.words[0].split(" ")
        index, rest, value = text.split(" ", 2)
        if samples.reads[call.words[0]][1] == "1":
            return value != "Memory" and message.endswith(rest) and 2 * int(index) + len(rest) == len(message)
        is_behind = (int(index), rest) == (int(place) + int(length), message[2 * int(index) :])
        return is_behind and bool(re.match(r"[A-Z0-9]+\(|Unknown \{|ZERO$", value))
    if call.name in ("from_tokens", "try_from_str"):
        return text != "Memory"
    if call.name in ("clone", "to_rdata"):
        made, of = text.split(" of ", 1)
        return made == of
    if call.name == "emit":
        came = emitted(text)
        return bool(came) and came[0] == "Ok(())" and wanted in (None, text)
    if wanted is None or wanted == "-":
        return True
    wanted = re.sub(r"\{([A-Z]+) ([0-9a-f]+)\}", lambda found: debug[found[1], found[2]], wanted)
    return text.startswith(wanted) if call.name == "to_string" else text == wanted


def with_ample_memory(machine, calls, samples, debug, counts):
    """The answers of all calls, of which those are counted that are as wanted."""
    answers = machine.answers([("from 0", call) for call in calls])
    for call, (requests, text) in zip(calls, answers):
        asks = requests.isdigit() and (requests != "0" if call.memory == "asks" else requests == "0" or call.memory == "perhaps")
        counts.add("with ample memory", call.name, asks and is_wanted(call, text, samples, debug), call, requests, text)
    return answers


def without_memory(machine, calls, answers, counts):
    """Every request refused of the calls that make none."""
    asked = [(call, answer) for call, answer in zip(calls, answers) if call.memory == "none"]
    for (call, (_, full)), (requests, text) in zip(asked, machine.answers([("from 1", call) for call, _ in asked])):
        counts.add("without memory", call.name, requests == "0" and text == full, call, requests, text, full)


def with_requests_refused(machine, calls, answers, debug, counts):
    """Each request of the other calls refused, with all later ones and alone."""
    asked = []
    for call, (requests, full) in zip(calls, answers):
        if call.memory != "none" and requests.isdigit():
            for kind, number in itertools.product(("from", "alone"), range(1, int(requests) + 2)):
                asked.append((f"{kind} {number}", call, number <= int(requests), full))
    came = machine.answers([(begin, call) for begin, call, _, _ in asked])
    for (begin, call, is_refused, full), (_, text) in zip(asked, came):
        same = text == full and (begin.startswith("alone") or not is_refused)
        holds = same or is_refused and is_want_of_memory(call, text, full, debug)
        kinds = {"from": "a request and all later ones refused", "alone": "a request refused alone"}
        kind = kinds[begin.split(" ")[0]] if is_refused else "none left to refuse"
        counts.add(kind, call.name, holds, begin, call, text, full)


def within_space(machine, samples, counts):
    """Each value emitted with an octet less than it needs, and with as many."""
    settings = [
        (mode, start, (value, output))
        for value, (_, output, _) in samples.values.items()
        for mode, start in itertools.product(MODES, starts_of(output))
    ]
    calls = [emit_call("perhaps", mode, start, value, output) for mode, start, (value, output) in settings]
    asked = []
    came = machine.answers([("from 0", call) for call in calls])
    for (mode, start, (value, output)), (_, full) in zip(settings, came):
        ample = emitted(full)
        if ample and ample[0] == "Ok(())":
            size = ample[2] - ample[1]
            for free in range(max(0, size - 1), size + 1):
                asked.append((emit_call("perhaps", mode, start, value, output, free), free == size, full))
    for (call, is_enough, full), (_, text) in zip(asked, machine.answers([("from 0", call) for call, _, _ in asked])):
        holds = text == full if is_enough else is_stopped(text, full, "MaxBufferSizeExceeded")
        counts.add("exactly enough space" if is_enough else "an octet too little", call.words[0], holds, call, text, full)


def usable(machine, samples):
    """Leaves out what words gave and no octets do: CERT without data and CAA with other tags."""
    calls = [Call("perhaps", "clone", (value,), None) for value in samples.values]
    for call, (_, text) in zip(calls, machine.answers([("from 0", call) for call in calls])):
        if text.startswith("not called") and samples.values[call.words[0]][0] in ("37", "257"):
            del samples.values[call.words[0]]


def built(folder):
    """The program and the counter of requests. """
    counter = pathlib.Path(folder, "requests.so")
    subprocess.run(["cc", "-shared", "-fPIC", "-O1", "-o", counter, TOP / "tests/requests.c", "-ldl"], check=True)
    built = subprocess.run([TOP / "tests/programs/build.sh", "rdata_replay"], stdout=subprocess.PIPE, text=True, check=True)
    return built.stdout.strip(), counter


def main(program, counter):
    """Makes all calls."""
    machine, samples, counts = Machine(program, str(counter)), Samples(), Counts()
    usable(machine, samples)
    debug = debug_texts(machine)
    calls = list(calls_of_table(samples))
    answers = with_ample_memory(machine, calls, samples, debug, counts)
    without_memory(machine, calls, answers, counts)
    with_requests_refused(machine, calls, answers, debug, counts)
    within_space(machine, samples, counts)
    counts.show()
    counted.note("calls", sum(counts.good.values()) + len(counts.bad))


if __name__ == "__main__":
    if len(sys.argv) > 1:
        main(*sys.argv[1:])
    else:
        with tempfile.TemporaryDirectory() as place:
            main(*built(place))
