"""Runs programs with each request for memory refused: `rdata` on the words of all replayed runs, and `zone_text` on lines.

Of each run the requests are counted (tests/requests.c). Then the Nth and every later one is refused, for each N: `rdata` must
print `memory` alone, with status 3, and `zone_text` nothing, with status 1; `zone_text message` at most the beginning of its
result. What `rdata` tells beside a result, a reason or that a word is left out, is made after the result is written: if a request
of that part is refused, the result is as it was and nothing is told. And the Nth alone is refused: the answer is the same, or, where the program asks again for less and gets that, the full
one. `zone_text` is run on the stored texts, on the records that it prints in the gate, and on the messages of tests/messages,
with the requests refused from the Nth on. The last line is 'N as wanted, M not'.

The arguments are the two programs and the counter of requests.
"""

import collections
import concurrent.futures
import os
import subprocess
import sys
import tempfile

from damaged import stored_rows
from messages import FOLDER as MESSAGES
from zone_texts import CRATE, ORIGIN, stored_texts

MEMORY = (b"memory\n", 3)
# What `rdata` prints of data that it rejects; the reason goes to standard error.
REFUSED = b"refused\n"
# `zone_text` gives no answer.
NOTHING = (b"", 1)
# `zone_text message` may have written the beginning of its result.
BEGUN = "begun"
# How many runs of one command and type have each of their requests refused alone.
ALONE = 40


def answer(run, **environment):
    """What a run, a program's words and its standard input, prints, and its status, with these variables.

    `rdata` may write to standard error if it prints `refused`, or a value of a text, and not otherwise: else that is added to what
    it prints.
    """
    words, line = run
    errors = subprocess.PIPE if line is None else subprocess.DEVNULL
    source = {"stdin": subprocess.DEVNULL} if line is None else {"input": line}
    done = subprocess.run(words, stdout=subprocess.PIPE, stderr=errors, env=environment, close_fds=False, **source)
    if line is None and done.stderr and not may_tell(words, (done.stdout, done.returncode)):
        return done.stdout + b"standard error: " + done.stderr, done.returncode
    return done.stdout, done.returncode


def may_tell(words, full):
    """Whether `rdata` may tell something beside this result: why it rejects, or that the last word of a text changes nothing."""
    return full[0] == REFUSED or full[1] == 0 and words[1:2] == ["parse"]


def requests_of(counter, run):
    """How many requests for memory a run makes, with its answer."""
    with tempfile.NamedTemporaryFile() as file:
        full = answer(run, LD_PRELOAD=counter, REQUESTS_COUNT=file.name)
        return int(file.read() or 0), full


def refusals(counter, run, kinds, refused, wanted):
    """The counts of one run's refusals of each kind: how many are as wanted, and a text for each that is not."""
    count, full = requests_of(counter, run)
    good, bad = collections.Counter(), [] if count else [f"no request was counted of {run}"]
    if wanted not in (None, full):
        bad.append(f"{run}: {full} in place of {wanted}")
    for kind in kinds:
        is_written = False
        for number in range(1, count + 2):
            name = "REQUESTS_ALONE" if kind == "alone" else "REQUESTS_REFUSE"
            came = answer(run, LD_PRELOAD=counter, **{name: str(number)})
            is_begun = refused == BEGUN and came[1] == 1 and came[0] != full[0] and full[0].startswith(came[0])
            # Once the result is written, it is so with every later request refused, too.
            is_written = is_written or number > 1 and run[1] is None and came == full and may_tell(run[0], full)
            wants = full if number > count or is_written else refused
            if came == wants or kind == "alone" and came == full or number <= count and is_begun:
                good[kind] += 1
            else:
                bad.append(f"request {number} of {count} refused ({kind}) of {run}: {came}")
    return good, bad


def runs_of_rdata(program, counter):
    """The replayed runs of the program, one without words too, and of some of each kind with single requests refused."""
    seen = collections.Counter()
    for status, output, words in stored_rows("rows.tsv"):
        seen[tuple(words[:2])] += 1
        kinds = ("from", "alone") if seen[tuple(words[:2])] <= ALONE else ("from",)
        yield counter, ([program, *words], None), kinds, MEMORY, (output.encode(), int(status))


def runs_of_zone_text(program, counter):
    """A run for each stored text, for each record whose text is stored, and for each stored message."""
    for number, text, _ in stored_texts():
        yield counter, ([program, "read", ORIGIN], f"{number} {text}\n".encode()), ("of zone texts",), NOTHING, None
    for line in (CRATE / "stdin").read_bytes().splitlines(keepends=True):
        yield counter, ([program], line), ("of zone texts",), NOTHING, None
    for path in sorted(MESSAGES.glob("*.hex")):
        yield counter, ([program, "message"], path.read_bytes()), ("of zone texts",), BEGUN, None


def main(program, zone_text, counter):
    """Refuses on all runs, as many at a time as there are processors."""
    jobs = [*runs_of_rdata(program, counter), *runs_of_zone_text(zone_text, counter)]
    good, bad = collections.Counter(), []
    with concurrent.futures.ProcessPoolExecutor(os.cpu_count()) as pool:
        for more, others in pool.map(refusals, *zip(*jobs), chunksize=8):
            good, bad = good + more, bad + others
    for text in bad[:20]:
        print("not as wanted:", text)
    print(f"runs with a request and all later ones refused: {good['from']}, with it alone refused: {good['alone']}; of zone texts: {good['of zone texts']}")
    print(f"{sum(good.values())} as wanted, {len(bad)} not")


if __name__ == "__main__":
    main(*sys.argv[1:])
