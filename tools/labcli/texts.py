"""Texts of files, and commands of a script with the texts of their blocks."""
from .codes import USAGE, Wrong

# The greatest number of lines of a block.
LINES = 16_384


def read(path):
    """Gives the bytes of a file."""
    try:
        with open(path, "rb") as it:
            return it.read()
    except (OSError, ValueError) as fault:
        raise Wrong(USAGE, f"can't read {path}: {getattr(fault, 'strerror', None) or fault}") from None


def shown(text):
    """Gives a text without signs that a terminal obeys. A tab is a blank."""
    return "".join(sign if sign.isprintable() else f"\\x{ord(sign):02x}" for sign in text.replace("\t", " "))


class Text:
    """The lines of a file, without a byte order mark and carriage returns; `text` stands in the file's place where it is given."""

    def __init__(self, path, text=None):
        text = (read(path) if text is None else text).removeprefix(b"\xef\xbb\xbf")
        self.path = path
        self.lines = [line.removesuffix(b"\r") for line in text.split(b"\n")]
        if not self.lines[-1]:
            self.lines.pop()
        if len(self.lines) > LINES:
            raise Wrong(USAGE, f"{path} has {len(self.lines)} lines, and a block at most {LINES}; split the experiment")

    def block(self):
        return b"".join(line + b"\n" for line in self.lines)


class Command:
    """A command of a script, with the texts of its blocks."""

    def __init__(self, head, *texts):
        self.head = head
        self.texts = texts

    def script(self):
        counts = "".join(f" {len(text.lines)}" for text in self.texts)
        return (self.head + counts + "\n").encode() + b"".join(text.block() for text in self.texts)

    def place(self, number):
        """Gives the file, line and text of the block's line of that number, counted over all blocks."""
        for text in self.texts:
            if number <= len(text.lines) or text is self.texts[-1]:
                line = text.lines[number - 1] if number <= len(text.lines) else b""
                return text.path, number, line.decode(errors="replace")
            number -= len(text.lines)
        return None

    def word(self):
        return self.head.partition(" ")[0]

    def is_ns(self):
        return self.word() in ("create", "modify", "play")

    def searches(self):
        """Whether this command searches a place."""
        return self.word() in ("swapin", "solve", "modify")

    def swapped(self):
        """Gives the experiment that this command swaps, where it is a swap."""
        words = self.head.split(" ")
        return words[1] if words[0] in ("swapin", "swapin-with", "swapout", "modify", "modify-with") else None
