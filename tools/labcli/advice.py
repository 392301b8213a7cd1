"""Advice behind a refusal: the faulty line of a text, and the manual's sentence of its kind."""
import re
import sys

from .programs import manual


def sentence(heading, word, last=False):
    """Gives the manual's sentence of a word in a table below a heading: of the first or the last row that has it."""
    inside, found = False, None
    for line in manual():
        if line.startswith("#"):
            inside = line.strip("# ") == heading
        cells = [cell.strip() for cell in line.split("|")]
        if inside and len(cells) > 3 and word in re.findall(r"[\w-]+", cells[1]) and (last or found is None):
            found = cells[2]
    return found


def explain(command, replies):
    """Tells of a refusal of a block which line it is and what the manual says; and what to do where a lab is set already."""
    for reply in replies:
        words = reply.split(" ")
        if reply == "lab is set":
            print("  a folder's lab is set once: set another in a new folder, as lab -d DIR set FILE", file=sys.stderr)
        if words[0] == "bad" and len(words) == 4 and command.texts:
            path, number, line = command.place(int(words[2]))
            told = sentence("Kinds of faults", words[3], command.is_ns())
            print(f"{path}:{number}: {line}\n  {words[3]}: {told}" if told else f"{path}:{number}: {line}", file=sys.stderr)
        elif words[0] == "infeasible" and len(words) == 4:
            told = sentence("The rules of a solution", words[2])
            if told:
                print(f"  {words[2]}: {told}", file=sys.stderr)
