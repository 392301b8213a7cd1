"""A look before a lab is set: over a damaged one no new lab is begun."""
import os

from .codes import REFUSED, Wrong
from .programs import program

# The least length of a side with a header and its gate.
SIDE = 18


def is_lost(path):
    """Whether devices hold something, and no side of the journal has so much as a header."""
    lengths = [os.path.getsize(f"{path}/{name}") if os.path.exists(f"{path}/{name}") else 0 for name in ("journal.a", "journal.b")]
    held = any(os.path.exists(f"{path}/{name}") and os.path.getsize(f"{path}/{name}") for name in ("tables", "tables.new", "tables.old"))
    return held and max(lengths) < SIDE


def refuse(lab):
    """Refuses to set a lab in a folder whose journal is damaged."""
    if not any(os.path.exists(f"{lab.path}/{name}") for name in ("journal.a", "journal.b", "tables")):
        return
    told = lab.look("--check")[1][-1:] if program("labview") else []
    if told == ["damaged"] or is_lost(lab.path):
        raise Wrong(REFUSED, f"{lab.path} holds a damaged lab, and a new one would be begun over it: see lab view --check, and set one in a new folder")
