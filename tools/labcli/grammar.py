"""The commands of a script, split by their blocks: what a server takes, so that no line of a client can end the program it serves by."""
import re

from .codes import USAGE, Wrong

NAME, NUMBER = rb"[A-Za-z0-9_.-]{1,32}", rb"[0-9]{1,20}"
LINES, LONGEST = 16_384, 4_096
# Each command, and how many blocks it has.
FORMS = {
    b"ptop N": 1, b"create E N": 1, b"create-top E N": 1, b"show E": 0, b"solve E S": 0, b"swapin E S": 0, b"swapin-with E N": 1,
    b"modify E S N": 1, b"modify-with E N N": 2, b"play E S S N": 1, b"batch S N": 1, b"swapout E": 0, b"delete E": 0,
    b"recover": 0, b"status": 0, b"audit": 0,
}
SWAPS = (b"swapin", b"swapin-with", b"modify", b"modify-with", b"swapout")


def pattern(form):
    """Gives what a command's first line has to be."""
    parts = {b"E": NAME, b"S": NUMBER, b"N": b"(" + NUMBER + b")"}
    return re.compile(rb" ".join(parts.get(word, re.escape(word)) for word in form.split(b" ")))


PATTERNS = {form.partition(b" ")[0]: pattern(form) for form in FORMS}


class Asked:
    """A command of a script: its first line, its whole text, and the experiment that it swaps, if it does."""

    def __init__(self, head, text):
        self.head, self.text = head.decode(), text
        words = head.split(b" ")
        self.swapped = words[1].decode() if words[0] in SWAPS else None


def commands(script):
    """Gives the commands of a script. A line that is none, or a block that is cut or has too long a line, is refused."""
    lines = script.split(b"\n")
    if lines[-1] == b"":
        lines.pop()
    found, at = [], 0
    while at < len(lines):
        head = b" ".join(lines[at].split())
        if not head or head.startswith(b"#"):
            at += 1
            continue
        form = PATTERNS.get(head.partition(b" ")[0])
        fits = form and form.fullmatch(head)
        if not fits:
            word = head.split(b" ")[0].decode(errors="backslashreplace")
            raise Wrong(USAGE, f"line {at + 1} is no command that a server takes: {word}; end lab serve for open, turn, finish and drills")
        block = lines[at + 1:at + 1 + sum(map(int, fits.groups()))]
        if any(int(it) > LINES for it in fits.groups()) or len(block) < sum(map(int, fits.groups())):
            raise Wrong(USAGE, f"the block of line {at + 1} is cut short")
        if any(len(line) > LONGEST for line in block):
            raise Wrong(USAGE, f"the block of line {at + 1} has a line of more than {LONGEST} bytes")
        found.append(Asked(head, b"".join(line + b"\n" for line in [head, *block])))
        at += 1 + len(block)
    return found
