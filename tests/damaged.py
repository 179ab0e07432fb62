"""Runs the program on damaged messages and words, and compares each answer with what a plain table wants.

The messages are those of the replayed runs (tests/programs/rdata_replay/data): each with other lengths, cut, with an octet changed or one
more behind it. The messages of rejected runs are among them. Beside them stand pointers in the data of every type with a name, edges of
the lists in records, records as long as they can be, and texts truncated after each word. tests/plain_table.py says which
octets are data and what is printed of them, and tests/plain_words.py which texts are.

All runs go through one program, `rdata_replay` of tests/programs. With --checked it has the checks of `rt try`, which is for sources that
were not proved, and makes some of the runs. The number of runs of each kind is printed. The last line is 'N as wanted, M not'.

    tests/damaged.py [--checked]
"""

import collections
import pathlib
import re
import subprocess
import sys

import counted
import plain_table
import plain_words

TOP = pathlib.Path(__file__).resolve().parent.parent
ROWS = TOP / "tests/programs/rdata_replay"
# How many of the cuts of one message are taken in front of its record and behind it, within it, and within a great one.
FEW, MANY, OF_GREAT = 8, 1000, 5

# A run: its words, and what is wanted: the status, and for data that is read or parsed what the tables print of it.
Run = collections.namedtuple("Run", "kind words status data", defaults=[None])
ACCEPTED, REFUSED, USAGE = "0", "1", "2"


def thin(numbers, most):
    """At most so many of the numbers, from the first to the last."""
    step = max(1, -(-len(numbers) // most))
    return sorted({*numbers[::step], *numbers[-1:]})


def read_run(kind, type_word, place, length, message):
    """A run of `read`, with what the table says of it."""
    words = ["read", type_word, str(place), str(length), message.hex() or "-"]
    if place > len(message) or length > 65535:
        return Run(kind, words, USAGE)
    data = plain_table.read(plain_table.type_number(type_word), message, place, length)
    return Run(kind, words, REFUSED if data is None else ACCEPTED, data)


def text_run(kind, type_word, text):
    """A run of `parse`, with what the table says of it."""
    data = plain_words.parse(plain_table.type_number(type_word), text)
    return Run(kind, ["parse", type_word, text], REFUSED if data is None else ACCEPTED, data)


def stored_rows(*names):
    """The status, the output and the words of each replayed run of these files."""
    for name in names:
        for line in (ROWS / "data" / name).read_bytes().decode().split("\n"):
            fields = [plain(field) for field in line.split("\t")]
            if len(fields) > 1 and not line.startswith("#"):
                yield fields[0], fields[1], fields[2:]


def stored_messages():
    """The type, place, length and message of each replayed run that reads a message, also of those that are rejected."""
    for status, _, words in stored_rows("rows.tsv", "real.tsv"):
        if status != USAGE and words[0] == "read":
            message = bytes.fromhex(words[4].strip("-"))
            yield words[1], int(words[2]), int(words[3]), message


def plain(field):
    """A field of a line without its escapes."""
    return re.sub(r"\\(.)", lambda found: {"n": "\n", "t": "\t", "r": "\r"}.get(found[1], found[1]), field)


def escaped(word):
    """A word as a field of a line."""
    for plainly, by in (("\\", "\\\\"), ("\n", "\\n"), ("\t", "\\t"), ("\r", "\\r")):
        word = word.replace(plainly, by)
    return word


# Octets that are put in place of others.
OTHERS = [0, 1, 0x3F, 0x40, 0x80, 0xC0, 0xFF]


def damaged_messages():
    """Each message, as it is, with other lengths, cut, with an octet changed, and with an octet more behind it."""
    for word, place, length, message in stored_messages():
        most = MANY if len(message) < 4096 else OF_GREAT
        yield read_run("message", word, place, length, message)
        for shorter in thin(range(length), most):
            yield read_run("shorter length", word, place, shorter, message)
        for longer in (length + 1, 65535):
            yield read_run("longer length", word, place, longer, message)
        end = place + length
        within = thin(range(place, end), most)
        cuts = [*thin(range(place), FEW), *within, *thin(range(end, len(message)), FEW)]
        for cut in cuts:
            yield read_run("message cut", word, place, length, message[:cut])
        for cut in within:
            yield read_run("message and length cut", word, place, cut - place, message[:cut])
        for at in thin(range(place, min(end, len(message))), most):
            other = bytes([OTHERS[at % len(OTHERS)]])
            yield read_run("octet changed", word, place, length, message[:at] + other + message[at + 1 :])
        for more in (b"\0", b"\xc0", b"\xff"):
            yield read_run("octet behind", word, place, length, message + more)
            yield read_run("octet behind, counted", word, place, length + 1, message[:end] + more)


# For each type with a name: octets in front of the name and behind it. The numbers in front look like labels, too.
AROUND_NAMES = {
    **dict.fromkeys(["NS", "CNAME", "PTR", "ANAME"], [(b"", b"")]),
    "MX": [(b"\x01\x61", b""), (b"\0\0", b"")],
    "SRV": [(b"\0\1\x61\0\0\0", b"")],
    "SOA": [(b"", b"\0" + bytes(20)), (b"\x01\x62\0", bytes(20)), (b"", b"\xc0\0" + bytes(20))],
    "NAPTR": [(b"\0\1\0\1\1\x61\0\0", b"")],
    "SVCB": [(b"\0\1", b""), (b"\0\1", b"\0\3\0\2\1\xbb")],
    "HTTPS": [(b"\0\1", b"\0\1\0\3\2h2")],
}
# What stands before the record: nothing, a name, a label that runs on, a chain of pointers, and pointers into the record.
IN_FRONT = ["", "00", "016100", "056162", "016100c000c003c005", "0162c004", "c002", "c004", "0161c00001"]


def pointer(place):
    """A pointer to a place (RFC 1035, 4.1.4)."""
    return (0xC000 + place).to_bytes(2, "big")


def pointers():
    """Pointers in record data: to each place before and behind, themselves and the record's numbers, in chains and circles."""
    for word, around in AROUND_NAMES.items():
        for before, behind in around:
            for front in map(bytes.fromhex, IN_FRONT):
                for labels in (b"", b"\x01\x61", b"\x01\x61\x3f" + b"\x62" * 63):
                    size = len(before) + len(labels) + 2 + len(behind)
                    for target in range(len(front) + len(before) + len(labels) + 5):
                        message = front + before + labels + pointer(target) + behind
                        yield read_run("pointer", word, len(front), size, message)


def circles():
    """Two names that point at each other, chains as long as they can be, and names at their greatest length."""
    for word, around in AROUND_NAMES.items():
        before, behind = around[0]
        for first in range(6):
            place = 2 + first
            message = bytes(first) + pointer(place + len(before)) + before + pointer(first) + behind
            yield read_run("circle", word, place, len(message) - place, message)
        chain = b"\x01\x61\0" + pointer(0) + b"".join(pointer(2 * i + 3) for i in range(8000))
        message = chain + before + pointer(len(chain) - 2) + behind
        yield read_run("long chain", word, len(chain), len(message) - len(chain), message)
        tail = (b"\x3f" + b"\x61" * 63) * 3
        for size in range(56, 64):
            front = tail + b"\0"
            message = front + before + bytes([size]) + b"\x62" * size + pointer(0) + behind
            yield read_run("long name", word, len(front), len(message) - len(front), message)


# Data at the edges of lists: options, parameters, sets of types, tags, and numbers with a name of their own.
EDGES = {
    "OPT": """0008000400030000000a 000a00010008000400030000 000800040001000000 0008000400012000 000800080001200001020304
        00080009000121000102030405 0008000400028000 000800140002800000112233445566778899aabbccddeeff 00080003000100
        000800050001010080 00080005000101007f 0008000500010100ff000a 0008000600010100ff01 0003ffff 00030000 0003000100
        000a0002ffff000a0001ff000a0002fffe 00080004000200000008000400010000 000a0009 000a0005000a 0000000000000000""",
    "SVCB": """0001000001000100 00010000010002000000 0001000001000201ff 0001000000000100 000100000000020000 00010000000003000001
        000100000400030102030400 00010000060000 000100000600100000000000000000000000000000000100 0001000003000101 00010000030000
        0001000003000301bbff 00010000050000 00010000020000 0001000002000100 000100fffe0001ff 000100ffff0000 000100ff000001e9
        0001000007000161 00010000010003026832000100030268320 000100000300020035000100030268320 00010000000004000400010001
        00010000070000 00010000070002c3a9 00010000070001c3 00010000070002c080 00010000070003eda080 00010000070004f0908080""",
    "CSYNC": """0000000100000001800001 000000010000000140000140 00000001000000020000 00000001000000220000 0000000100030000
        00000001000001014000014000 000000010000ff0101 0000000100000020000000000000000000000000000000000000000000000000000000
        00000001ff030001400002000000 000000010080 000000010003 00000001000300 0000000100000001""",
    "CAA": """0000 000161 00012d 00017b 000f616263646566676869303132333435 001061626364656667686930313233343536 ff0161ff
        000361622e 0005616263 007f 0002c3a9""",
    "NAPTR": """000000000000000000 00000000012d00000000 000000000241390000000 00000000 0000000001c301a901ff00""",
    "TXT": """00 0000 01 ff 02c3a9 01c301a9 03e282 04f0908080 03eda080""",
    "HINFO": """0000 00 01610162 0161 02c301ff""",
    "NS": """00 40 4000 8000 bfff c000 c001 3f 0100 01ff00 0141c000 012e00""",
}


def edges():
    """Data at the edges of lists and numbers."""
    for word, octets in EDGES.items():
        for digits in octets.split():
            message = bytes.fromhex(digits[: len(digits) // 2 * 2])
            for kind in (word, "HTTPS") if word == "SVCB" else (word,):
                yield read_run("edge", kind, 0, len(message), message)
    for number in [*range(258), 5352, 65279, 65280, 65534, 65535]:
        yield read_run("edge", "CERT", 0, 6, number.to_bytes(2, "big") + bytes([0, 1, number % 256, 9]))
        yield read_run("edge", str(number), 0, 2, b"\1\xff")
        yield read_run("edge", f"TYPE{number}", 0, 0, b"")


def greatest():
    """Records as long as a length can say, and a service binding that has no room where its target is written whole."""
    for word in ("A", "AAAA", "MX", "SOA", "OPT", "NULL", "TXT"):
        yield read_run("greatest", word, 0, 65535, b"\1\2\3\4")
        yield read_run("greatest", word, 0, 65535, bytes(65535))
        yield read_run("greatest", word, 0, 65535, bytes(65536))
    for word in ("SVCB", "HTTPS"):
        head = bytes.fromhex("0377777700 0001 c000 0005 fff7")
        for place, length in ((5, 65535), (5, 65534)):
            yield read_run("greatest", word, place, length, head + bytes(65527))
        room = bytes.fromhex("0377777700 0001 c000 0005 fff4")
        yield read_run("greatest", word, 5, 65532, room + bytes(65524))


# A word is in quotes, or runs up to a blank.
WORD = re.compile(r'"[^"]*"|[^ "]+')


def cut_texts():
    """Each text that is parsed, truncated after each word and whole."""
    for status, _, words in stored_rows("rows.tsv", "real.tsv"):
        if words[:1] != ["parse"] or status == USAGE:
            continue
        word, text = words[1:]
        for end in [0, *(found.end() for found in WORD.finditer(text)), len(text)]:
            yield text_run("text cut", word, text[:end])


def wrong_texts():
    """Words of parameters, and texts with an open quote or parenthesis."""
    for word in ("SVCB", "HTTPS"):
        for parameter in ("=", '"', r'"\""', r"\"", "key", "key65536=a", "alpn=,", "mandatory=key65536", "alpn="):
            yield Run("parameter", ["parse", word, f"1 . {parameter}"], ACCEPTED if parameter == "alpn=" else REFUSED)
        for parameter in ("dohpath", "dohpath=", 'dohpath="', 'dohpath=""'):
            yield Run("parameter", ["parse", word, f"1 . {parameter}"], REFUSED)
        for parameter in ("mandatory=key65535", "alpn=h2,", "key65534=a", "key7", "key7=x", "dohpath=/q{?dns}", "mandatory=dohpath"):
            yield Run("parameter", ["parse", word, f"1 . {parameter}"], ACCEPTED)
    for word in plain_words.RECORDS:
        for text in ('"', "a (", "(", "1.2.3.4 (", '1 a. "', "( a", '( "a" ', "a ( b ( c ) )"):
            yield Run("open text", ["parse", word, text], REFUSED)


def wrong_lines():
    """Words that the program does not know, and a place at the message's end."""
    for line in (
        *("read A 5 0 01020304", "read A 0 65536 01020304", "read A 0 000004 01020304", "cmp A 0 01020304", ""),
        *("read", "read A", "read A 0 4", "read A 0 4 01020304 x", "read A 0 4 0102030", "read A 0 4 0x", "read A -1 4 00"),
        *("read a 0 4 01020304", "read 65536 0 0 -", "read A 0 +4 01020304", "parse A", "cmp A 01020304", "write A 0 4 00"),
    ):
        yield Run("line", line.split(" "), USAGE)
    yield Run("line", "read A 4 0 01020304".split(), REFUSED)


def line_of(run):
    """The line that asks for a run."""
    return "\t".join(map(escaped, run.words)) + "\n"


def answers_to(runs, flags):
    """The answers of the program to runs, nothing if it is not built."""
    built = subprocess.run([TOP / "tests/programs/build.sh", *flags, "rdata_replay"], stdout=subprocess.PIPE, text=True)
    if built.returncode != 0:
        return []
    given = "".join(map(line_of, runs)).encode()
    done = subprocess.run([built.stdout.strip(), "answers"], input=given, stdout=subprocess.PIPE, timeout=3600)
    return done.stdout.decode().split("\n")[:-1]


def hexadecimal(octets):
    """Octets as the program prints them: `-` where there are none, `none` where they can't be emitted."""
    return "none" if octets is None else octets.hex() or "-"


def is_data(number, output):
    """Whether the octets that were emitted of a text are data of the type, and have the canonical octets that were printed.

    Words can give a CERT without data and a CAA with any tag, which are emitted and not read.
    """
    found = re.search(r"\ncanonical (\S+)\nemitted (\S+)\n\Z", output)
    if not found or not output.startswith(f"type {number}\n"):
        return False
    if found[2] == "none":
        return found[1] == "-"
    octets = bytes.fromhex(found[2].strip("-"))
    data = plain_table.read(number, octets, 0, len(octets))
    return plain_table.NAMES[number] in ("CERT", "CAA") if data is None else hexadecimal(data[0]) == found[1]


def is_wanted(run, answer):
    """Whether a line that answers a run is the wanted one, as far as the run says."""
    status, _, output = answer.partition("\t")
    if status != run.status:
        return False
    if status != "0":
        return output == {"1": "refused\\n", "2": "usage\\n"}[status]
    number, output = plain_table.type_number(run.words[1]), plain(output)
    if run.data is None:
        return is_data(number, output)
    canonical, emitted, text = run.data
    head = f"type {number}\ntext " + ("" if text is None else text)
    tail = f"\ncanonical {hexadecimal(canonical)}\nemitted {hexadecimal(emitted)}\n"
    return output.startswith(head) and output.endswith(tail) and (text is None or output == head + tail)


SOURCES = damaged_messages, pointers, circles, edges, greatest, cut_texts, wrong_texts, wrong_lines
# A program with checks takes about a millisecond for a run, and longer where its message is: so many of each kind, and a great
# message once, which is emitted nowhere since its target has no room.
QUICK, SHORT = 300, 20_000


def quick_runs(runs):
    """The runs of each kind thinned out for a program with checks."""
    kinds = collections.defaultdict(list)
    for run in runs:
        if len(run.words[-1]) <= SHORT or run.data is not None and run.data[1] is None and run.words[1] == "SVCB":
            kinds[run.kind].append(run)
    return [some[i] for some in kinds.values() for i in thin(range(len(some)), QUICK)]


def main(flags):
    """Asks for all runs, or with --checked for some, and prints what is not as wanted and the number of each kind."""
    runs = [run for source in SOURCES for run in source()]
    runs = quick_runs(runs) if flags else runs
    answers = answers_to(runs, flags)
    kinds = collections.Counter(run.kind for run in runs)
    answers += [""] * (len(runs) - len(answers))
    wrong = [(run, answer) for run, answer in zip(runs, answers) if not is_wanted(run, answer)]
    if not flags:
        counted.note("damaged", len(runs))
    for run, answer in wrong[:20]:
        print(f"not as wanted: {' '.join(run.words)[:300]}: {answer[:300]}")
    print("; ".join(f"{kind}: {count}" for kind, count in kinds.items()))
    print(f"{len(runs) - len(wrong)} as wanted, {len(wrong)} not")


if __name__ == "__main__":
    main(sys.argv[1:])
