"""How tools/new_type.py finds the lines of a type in a file, writes new ones, and compares. Each class is a way in which a file has lines
of types."""
import pathlib
import re
import sys
import textwrap

from type_lines import Wrong

sys.path.insert(0, str(pathlib.Path(__file__).resolve().parent.parent / "tests"))
import plain_table  # noqa: E402

# ---- which types have lines at a place


def every(kind):
    return True


def straight(kind):
    return kind.is_straight


def one_name(kind):
    return kind.is_name


def with_numbers(kind):
    return kind.is_straight and not kind.is_name


def several_numbers(kind):
    return with_numbers(kind) and len(kind.numbers) > 1


def in_a_mode(kind):
    return kind.is_straight and kind.mode != "Other"


# ---- places


class Place:
    """A place in a file, at which each of some types has lines. `order` says after which other type's lines a new one's are."""

    # Whether --check compares the lines, or only looks for the type's name there: data of tests and prose are each type's own.
    is_exact = True

    def __init__(self, name, path, anchor, render, types=straight, order="rank"):
        self.name, self.path, self.anchor, self.render, self.types, self.order = name, path, anchor, render, types, order

    def path_of(self, kind):
        return self.path.format(kind=kind)

    def missing(self, what="its anchor"):
        return Wrong(f"{self.path}: {what} is missing, which tools/new_type.py (`{self.name}`) looks for: {self.anchor}")

    def key(self, name, orders):
        return orders[self.order](name)


class Entries(Place):
    """Lines of each type one after the other. The anchor is a pattern of an entry's first line, whose first group is the type's name. The
    entries begin after the line `after`, if there is one. An entry has the comment lines above it (`lead`), and goes on with lines that are
    indented more or up to its closing bracket; with `open` it goes on up to the next entry. `gap` is how many empty lines are between."""

    def __init__(self, *given, lead=None, after=None, open=False, gap=0, is_exact=True, **more):
        super().__init__(*given, **more)
        self.lead, self.after, self.open, self.gap, self.is_exact = lead, after, open, gap, is_exact

    def entries(self, text):
        """The name and the first and last line of each entry."""
        rows, found, at = text.split("\n"), [], 0
        if self.after:
            at = next((index + 1 for index, row in enumerate(rows) if re.search(self.after, row)), None)
            if at is None:
                raise self.missing(f"`{self.after}`")
        heads = []
        while at < len(rows):
            head = re.search(self.anchor, rows[at])
            if head:
                heads.append((head[1] if self.order == "module" else head[1].upper(), at))
            elif self.after and heads and re.match(r"^[^\s/#-]", rows[at]):
                break
            at += 1
        if not heads:
            raise self.missing()
        for index, (name, head) in enumerate(heads):
            start = head
            while self.lead and start and re.match(self.lead, rows[start - 1]):
                start -= 1
            found.append((name, start, self.end(rows, head, heads[index + 1][1] if index + 1 < len(heads) else None)))
        return rows, found

    def end(self, rows, head, following):
        depth = len(rows[head]) - len(rows[head].lstrip())
        if self.open:
            end = len(rows) if following is None else following
            while end > head + 1 and (not rows[end - 1].strip() or self.lead and re.match(self.lead, rows[end - 1])):
                end -= 1
            return end
        if rows[head].endswith(("{", "[", "(")) and not self.path.endswith(".antt"):
            end = head + 1
            while not re.match(r"^\s{%d}[\]})]" % depth, rows[end]):
                end += 1
            return end + 1
        end = head + 1
        while end < len(rows) and rows[end].strip() and len(rows[end]) - len(rows[end].lstrip()) > depth:
            end += 1
        return end

    def write(self, text, kind, orders):
        rows, found = self.entries(text)
        if any(name == kind.name for name, _, _ in found):
            raise Wrong(f"{self.path}: {kind.name} is there already (`{self.name}`)")
        before = [(self.key(name, orders), end) for name, _, end in found if self.key(name, orders) < self.key(self.own_name(kind), orders)]
        made = self.render(kind).rstrip("\n").split("\n")
        if before:
            at = max(before)[1]
            rows[at:at] = [""] * self.gap + made
        else:
            at = found[0][1]
            rows[at:at] = made + [""] * self.gap
        return "\n".join(rows)

    def own_name(self, kind):
        return kind.name

    def check(self, text, kind):
        rows, found = self.entries(text)
        there = ["\n".join(rows[start:end]) for name, start, end in found if name == self.own_name(kind)]
        if not there:
            return "has no lines of it"
        wanted = self.render(kind).rstrip("\n")
        return None if not self.is_exact or wanted in there else difference(wanted, there[0])


class Modules(Entries):
    """Entries named by the module of the record."""

    def own_name(self, kind):
        return kind.module


class Ranked(Entries):
    """Entries with the rank of each variant: those after a new one have one more."""

    def write(self, text, kind, orders):
        text = super().write(text, kind, orders)
        count = iter(range(1000))
        return re.sub(r"(?m)^(rank .* = )\d+$", lambda found: f"{found[1]}{next(count)}", text)


class Shifted(Place):
    """Numbers that are one more with a new type: the anchor is a pattern with the number as its second group."""

    def write(self, text, kind, orders):
        text, count = re.subn(self.anchor, lambda found: f"{found[1]}{int(found[2]) + 1}{found[3]}", text)
        if not count:
            raise self.missing()
        return text

    def check(self, text, kind):
        return None if re.search(self.anchor, text) else "has no such number"


class Words(Place):
    """A list of words. The anchor is a pattern whose group is the list; `between` is what is between two words. A list of several lines is
    filled anew from the line of the new word on, up to `width`, with `turn` at the end of a line and `begin` at the beginning of one.
    `after` is a pattern of the words after which the new one is, if they have no order."""

    def __init__(self, *given, between=", ", turn=",", begin=None, width=99, after=None, named=r"(\w+)$", **more):
        super().__init__(*given, **more)
        self.between, self.turn, self.begin, self.width, self.after, self.named = between, turn, begin, width, after, named

    def found(self, text):
        found = list(re.finditer(self.anchor, text, re.M))
        if not found:
            raise self.missing()
        return found

    def words(self, body):
        """The words of each line."""
        # A word in parentheses has blanks inside.
        divider = re.escape(self.between.strip()) or r"\s+(?![^(]*\))"
        rows = [[word.strip() for word in re.split(divider, row) if word.strip()] for row in body.split("\n")]
        return [row for row in rows if row]

    def name_of(self, word):
        name = re.search(self.named, word)
        return word if self.order == "ascii" or not name else name[1].upper()

    def write(self, text, kind, orders):
        for word in self.made(kind):
            text = self.put(text, orders, word)
        return text

    def made(self, kind):
        made = self.render(kind)
        return made if isinstance(made, list) else [made]

    def put(self, text, orders, word):
        own = self.key(self.name_of(word), orders)
        best = None
        for found in self.found(text):
            rows = self.words(found[1])
            for at, row in enumerate(rows):
                for index, other in enumerate(row):
                    if other == word:
                        raise Wrong(f"{self.path}: {word} is there already (`{self.name}`)")
                    if self.after:
                        if re.search(self.after, other):
                            best = (0, found, at, index + 1)
                    elif self.key(self.name_of(other), orders) < own and (best is None or best[0] <= self.key(self.name_of(other), orders)):
                        best = (self.key(self.name_of(other), orders), found, at, index + 1)
        _, found, at, index = best or (None, self.found(text)[0], 0, 0)
        rows = self.words(found[1])
        rows[at].insert(index, word)
        column = found.start(1) - (text.rfind("\n", 0, found.start(1)) + 1)
        return text[: found.start(1)] + self.joined(self.numbered(rows), at, found[1], column) + text[found.end(1) :]

    def numbered(self, rows):
        return rows

    def joined(self, rows, changed, body, column):
        """The list again, with the lines from the changed one on filled anew. It begins at a column of its first line."""
        if "\n" not in body:
            return self.between.join(word for row in rows for word in row)
        starts = [re.match(r"\s*", row)[0] for row in body.split("\n")]
        first, following = starts[0], (starts[1] or starts[0]) + (self.begin or "")
        made, row = [self.between.join(row) for row in rows[:changed]], ""
        for word in (word for row in rows[changed:] for word in row):
            longer = row + self.between + word if row else word
            begin = len(following) if made else column + len(first)
            if row and begin + len(longer) + len(self.turn) > self.width:
                made.append(row)
                longer = word
            row = longer
        end = body[len(body.rstrip()) :]
        last = self.turn if self.turn and body.rstrip().endswith(self.turn) else ""
        return first + f"{self.turn}\n{following}".join([*made, row]) + last + end

    def check(self, text, kind):
        there = {word for found in self.found(text) for row in self.words(found[1]) for word in row}
        lacking = [word for word in self.made(kind) if word not in there]
        return f"lacks `{lacking[0]}`" if lacking else None


class RankedWords(Words):
    """Words with the rank of each variant."""

    def numbered(self, rows):
        count = iter(range(1000))
        return [[re.sub(r" \d+\)$", lambda found: f" {next(count)})", word) for word in row] for row in rows]


class Blocks(Place):
    """Paragraphs of a type that are anywhere in the file; new ones are put after the last paragraph that the anchor is in, or at the end of
    the file."""

    def write(self, text, kind, orders):
        made = "\n".join(block if block.endswith("\n") else f"{block}\n" for block in self.blocks(kind))
        if not self.anchor:
            return text.rstrip("\n") + "\n\n" + made
        found = list(re.finditer(self.anchor, text, re.M))
        if not found:
            raise self.missing()
        at = text.find("\n\n", found[-1].end())
        return text.rstrip("\n") + "\n\n" + made if at < 0 else text[: at + 2] + made + "\n" + text[at + 2 :]

    def blocks(self, kind):
        made = self.render(kind)
        return made if isinstance(made, list) else [made]

    def check(self, text, kind):
        for block in self.blocks(kind):
            if block.rstrip("\n") + "\n" not in text + "\n":
                head = block.split("\n")[0]
                at = text.find(head)
                return difference(block.rstrip("\n"), text[at : at + len(block) + 200]) if at >= 0 else f"lacks `{head}`"
        return None


class NewFile(Place):
    """A file of the type's own."""

    def write(self, text, kind, orders):
        if text is not None:
            raise Wrong(f"{self.path_of(kind)} is there already (`{self.name}`)")
        return self.render(kind)

    def check(self, text, kind):
        wanted = self.render(kind)
        return None if text == wanted else "is missing" if text is None else difference(wanted, text)


class Data(Place):
    """Lines of data at the end of a file, each of which names the type. `counted` is the file that says how many lines it has."""

    def __init__(self, *given, counted=None, **more):
        super().__init__(*given, **more)
        self.counted = counted

    def write(self, text, kind, orders):
        return text.rstrip("\n") + "\n" + "".join(f"{row}\n" for row in self.render(kind))

    def check(self, text, kind):
        return None if re.search(rf"(?m)\b{kind.name}\b", text) else "has no line of it"


class Kept(Place):
    """Golden runs that read RDATA of the type by its number, from before it had a format: what is wanted of them now. The reference model
    reads them."""

    def write(self, text, kind, orders):
        return "\n".join(self.rewritten(row.split("\t"), kind) for row in text.split("\n"))

    def rewritten(self, columns, kind):
        if len(columns) != 7 or columns[2] != "read" or columns[3] not in (str(kind.number), f"TYPE{kind.number}", kind.name):
            return "\t".join(columns)
        try:
            message = bytes.fromhex(columns[6].replace("-", ""))
            window = plain_table.Window(message, int(columns[4]), int(columns[5]))
            parts, text = plain_table.numbers_and_name(*(field.octets for field in kind.numbers))(window)
            if window.left():
                raise plain_table.NoData
        except plain_table.NoData:
            return "\t".join(["1", "refused\\n", *columns[2:]])
        if text is None:
            raise Wrong(f"{self.path}: the text of a name in `{' '.join(columns[2:])}` has escapes, which the reference model does not know")
        octets = plain_table.canonical(parts).hex(), plain_table.emitted(parts, kind.mode == "StandardRecord").hex()
        return "\t".join(["0", f"type {kind.number}\\ntext {text}\\ncanonical {octets[0]}\\nemitted {octets[1]}\\n", *columns[2:]])

    def check(self, text, kind):
        return None


class Prose(Place):
    """A list in a sentence. The anchor is a pattern whose group is the list. With `mark` the paragraph is a comment, which is filled anew up to
    `width`."""

    def __init__(self, *given, mark=None, width=None, at_end=False, **more):
        super().__init__(*given, **more)
        self.mark, self.width, self.at_end = mark, width, at_end

    def paragraph(self, text):
        """Where the paragraph of the anchor is, and its text in one line."""
        if self.mark is None:
            return 0, len(text), text
        rows, at = text.split("\n"), 0
        blocks, block = [], []
        for index, row in enumerate(rows + [""]):
            if row.startswith(self.mark) and row[len(self.mark) :].strip():
                block.append(index)
            elif block:
                blocks.append(block)
                block = []
        for block in blocks:
            one = " ".join(rows[index][len(self.mark) :].strip() for index in block)
            if re.search(self.anchor, one):
                start = sum(len(row) + 1 for row in rows[: block[0]])
                return start, start + sum(len(rows[index]) + 1 for index in block), one
        raise self.missing()

    def write(self, text, kind, orders):
        start, end, one = self.paragraph(text)
        found = re.search(self.anchor, one, re.M)
        if not found:
            raise self.missing()
        one = one[: found.start(1)] + self.with_name(found[1], kind, orders) + one[found.end(1) :]
        if self.mark is not None:
            one = textwrap.fill(one, self.width, initial_indent=self.mark, subsequent_indent=self.mark, break_long_words=False, break_on_hyphens=False) + "\n"
        return text[:start] + one + text[end:]

    def with_name(self, body, kind, orders):
        names = re.split(r", | and ", body)
        last = " and " if " and " in body else ", "
        own = self.key(kind.name, orders)
        smaller = [index for index, name in enumerate(names) if self.key(name, orders) < own]
        at = len(names) if self.at_end else max(smaller, default=-1) + 1
        names.insert(at, kind.name)
        return ", ".join(names[:-1]) + last + names[-1]

    def check(self, text, kind):
        _, _, one = self.paragraph(text)
        found = re.search(self.anchor, one, re.M)
        if not found:
            raise self.missing()
        return None if kind.name in re.split(r", | and ", found[1]) else "does not name it"


class Phrase(Prose):
    """A phrase of the type in a sentence, before the text of the anchor."""

    def write(self, text, kind, orders):
        start, end, one = self.paragraph(text)
        found = re.search(self.anchor, one, re.M)
        if not found:
            raise self.missing()
        one = one[: found.start()] + self.render(kind) + ", " + one[found.start() :]
        if self.mark is not None:
            one = textwrap.fill(one, self.width, initial_indent=self.mark, subsequent_indent=self.mark, break_long_words=False, break_on_hyphens=False) + "\n"
        return text[:start] + one + text[end:]

    def check(self, text, kind):
        return None if self.render(kind) in self.paragraph(text)[2] else f"lacks `{self.render(kind)}`"


def difference(wanted, there):
    """The first line that is not as wanted."""
    want, have = wanted.split("\n"), there.split("\n")
    for at, row in enumerate(want):
        if at >= len(have) or have[at] != row:
            return f"has `{have[at].strip() if at < len(have) else ''}` in place of `{row.strip()}`"
    return f"has more lines: `{have[len(want)].strip()}`"
