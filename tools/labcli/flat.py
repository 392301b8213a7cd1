"""The word `flat`: an NS file as people write them, by a real Tcl, as a flat text of kept commands or as a top text."""
import os
import sys

from .asked import Asked
from .codes import DONE, REFUSED, Wrong
from .flat_text import FlatText
from .noted import Fault, noted, read_text
from .programs import program
from .texts import Command, Text, shown

# Flat texts of experiments, in the folder of the lab.
KEPT = "{}.ns"


def add(words):
    """Adds the parser."""
    parser = words.add("flat", takes="", example="lab flat old.ns > new.ns; lab flat --top old.ns > new.top; lab create A --tcl old.ns does both in one")
    parser.add_argument("--top", action="store_true", help="a top text, which holds desires, hard classes, weights and rates by direction")
    parser.add_argument("file", metavar="FILE")


class Flat:
    """An NS file, the flat text that was made of it, and what is told of it, by line."""

    def __init__(self, path, file):
        self.path, self.file = path, file
        self.noted = noted(file)
        self.asked = Asked(self.noted)
        self.text = FlatText(self.asked, self.noted.run)

    def tell(self, line, what, sentence):
        """Tells of a line on standard error."""
        print(about(self.file, line, what, sentence), file=sys.stderr)

    def tell_all(self, is_top=False):
        """Tells what was left out and changed, in the order of lines; with a top text, but for what that holds."""
        told = [it for it in self.asked.told if not (is_top and it[3])]
        if is_top:
            told += [(call.line, "left out", "a top text has no events; lab play takes them from the flat text", False) for call, _, _ in self.asked.timed]
        for line, what, sentence, _ in sorted(told, key=lambda it: it[0]):
            self.tell(line, what, sentence)

    def look(self):
        """Refuses the text where labctl refuses lines of it, which are told."""
        from .check import faults
        if not program("labctl"):
            print("there is no labctl, so the text isn't tried", file=sys.stderr)
            return
        found = 0
        for fault in faults(Text(self.path, self.text.block())):
            found += 1
            self.tell(self.text.sources[fault.number - 1] if fault.number <= len(self.text.sources) else 0, fault.kind, fault.told)
        if found:
            self.tell_all()
            raise Wrong(REFUSED, f"{self.path}: labctl refuses {found} of its lines; mend them")


def about(file, line, what, sentence):
    """Gives what is told of a line of a file, or of the whole file where the line is 0: its place and text, and what is to be said."""
    place = file.path
    if 0 < line <= len(file.lines):
        place += f":{line}: {file.lines[line - 1].decode(errors='backslashreplace').strip()}"
    return shown(place) + "\n" + shown(f"  {what}: {sentence}")


def read(path):
    """Reads a file, or tells at which line it can't be evaluated."""
    file = read_text(path)
    try:
        return Flat(path, file)
    except Fault as fault:
        print(about(file, fault.line, fault.kind, fault.told), file=sys.stderr)
        raise Wrong(REFUSED, f"{path}: nothing is made of it; mend {'that line' if fault.line else 'it'}") from None


def created(args):
    """Gives the command that makes an experiment of the flat text of a file, and tells what is left out."""
    flat = read(args.file)
    flat.look()
    flat.tell_all()
    return Command(f"create {args.exp}", Text(args.file, flat.text.block()))


def keep(path, command):
    """Keeps the flat text of an experiment in the lab's folder, in the room of an older one at once."""
    path = f"{path}/{KEPT.format(command.head.split(' ')[1])}"
    with open(f"{path}.new", "wb") as it:
        it.write(command.texts[0].block())
    os.replace(f"{path}.new", path)


def run(args, lab):
    """Writes the flat text, or the top text, and tells what is left out."""
    flat = read(args.file)
    flat.look()
    flat.tell_all(args.top)
    if args.top:
        from .flat_top import top_text
        print("\n".join(top_text(flat)))
    else:
        sys.stdout.write(flat.text.block().decode())
    return DONE
