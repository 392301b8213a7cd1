"""The manual's tables below 'From Emulab': what to write for a line that is refused, by the command that the line is."""
import functools
import re

from .programs import manual

# Commands whose fault may be that of a command in their body.
BODIES = ("for", "foreach", "if")


def words_of(line):
    """Gives the words of the command of a line; of one that sets a variable to what a command gives, of that command."""
    text = line.strip()
    if set_to := re.match(r"set\s+\S+\s+\[+", text):
        text = text[set_to.end():]
    if link := re.match(r"\$\w+\s+link\s+[^\]]*\]", text):
        text = "$link" + text[link.end():]
    return text.strip("[]").split()


def key_of(words):
    """Gives the key of a command: its first word; behind `new` and behind an object the word there too, as `new Agent` and `$ queue-limit`."""
    first, second = (*words, "", "")[:2]
    if first == "new":
        return f"new {second.partition('/')[0]}"
    return f"$ {second}" if first[:1] in ("$", ":") else first


class Row:
    """A row of the tables: a line as files have it, the kind of its fault, and what is to be written in its place."""

    def __init__(self, line, kind, cell):
        self.line, self.kind, self.cell = line, kind, cell
        self.key = key_of(words_of(line))

    def is_nothing(self):
        return self.cell.startswith("nothing")

    def advice(self):
        """Gives what the row says, as a text without code signs."""
        return self.cell.removeprefix("nothing: ").replace("`", "")


@functools.cache
def rows():
    """Gives the rows of the manual, where it is found."""
    found, inside = [], False
    for line in manual():
        if line.startswith("## "):
            inside = line == "## From Emulab"
        match = inside and re.fullmatch(r"\| `(.*?)` \(`([\w-]+)`\) \| (.*) \|", line)
        if match:
            found.append(Row(*match.groups()))
    return found


def cure(line, kind):
    """Gives the row for a line that is refused: of its command and the kind, or of its command alone where all its rows say one thing."""
    words = words_of(line)
    own = [row for row in rows() if row.key == key_of(words)]
    same = [row for row in own if row.kind == kind]
    if same:
        return max(same, key=lambda row: len({*words_of(row.line)} & {*words}))
    is_alone = len({row.cell for row in own}) == 1 and words[0] not in BODIES
    return own[0] if is_alone and kind in ("command", "unsupported") else None


def left_out(words):
    """Gives what the manual says of a command that is left out, or None."""
    return next((row.advice() for row in rows() if row.key == key_of(words) and row.is_nothing()), None)
