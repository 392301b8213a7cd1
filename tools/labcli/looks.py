"""The words `view` and `map`: looks at the folder, which change nothing where labview stands."""
import json
import os
import subprocess

from .codes import FOLDER, USAGE, Wrong
from .programs import labview, program
from .shown import journal_text
from .values import lab_map


def add(words):
    """Adds the parsers."""
    words.add("map", takes="w", json=True, example="machine pc1 in ring node-0: ring claims pc1, and node-0 of it is there")
    parser = words.add("view", takes="", example="lab view --svg > lab.svg; lab view --check ends with sound, or tells the damage")
    parser.add_argument("--check", action="store_true", help="what both sides of the journal hold, and whether it is damaged")
    parser.add_argument("--records", action="store_true", help="a check lists all records, and not the last 20 alone")
    parser.add_argument("--svg", action="store_true", help="a picture of the lab")


def run(args, lab):
    """Looks."""
    if args.word == "view":
        return view(args, lab)
    return show_map(lab)


class Looked:
    """Who holds each machine that isn't free, and how many kbps are left of each trunk, where that is known."""

    def __init__(self, held, trunks):
        self.held, self.trunks = held, trunks


def looked(lab):
    """Looks who holds what: by labview where it stands, else as `show` tells it."""
    held, trunks = {}, {}
    if not program("labview"):
        return Looked({machine: exp.name for exp in lab.shown() for _, machine in exp.places()}, trunks)
    for words in (line.split(" ") for line in lab.look()[1]):
        if words[0] == "machine" and len(words) > 3:
            held[words[1]] = words[3]
        elif words[0] == "trunk":
            trunks[words[1]] = int(words[4])
    return Looked(held, trunks)


def view(args, lab):
    """Looks at a lab by labview, which needs no lock. Its picture and its text go to standard output."""
    if args.check and args.svg:
        raise Wrong(USAGE, "--check and --svg don't go together: look twice")
    if args.records and not args.check:
        raise Wrong(USAGE, "--records goes with --check")
    found = labview()
    if not os.path.isdir(lab.path):
        raise Wrong(FOLDER, f"there is no folder {lab.path}; name one by -d")
    words = [word for word, given in (("--check", args.check), ("--records", args.records), ("--svg", args.svg)) if given]
    return subprocess.run([found, *words, os.path.join(".", lab.path)]).returncode


def show_map(lab):
    """Tells who holds which machine: by labview where it stands, which changes nothing."""
    off = lab.off()
    if lab.json or program("labview"):
        status, lines = lab.look()
        # (the lab's own text, which stands before its machines, is left out)
        lines = [line for line in lines if line.split(" ")[0] not in ("vlans", "node", "link")]
        if lab.json:
            print(json.dumps(lab_map(lines, off), indent=1))
        else:
            print("\n".join(line + (" off" if line.startswith("machine ") and line.split(" ")[1] in off else "") for line in lines))
        return status
    lab.hold()
    holders = {}
    for exp in lab.shown():
        for virtual, machine in exp.places():
            holders.setdefault(machine, [exp.name]).append(virtual)
    text, homes = journal_text(lab.path), {}
    machines = [line.split(" ")[1:3] for line in text if line.startswith("node ")]
    for words in (line.split(" ") for line in text if line.startswith("link ")):
        homes.setdefault(words[2].partition(":")[0], words[3].partition(":")[0])
    for switch in [name for name, types in machines if types == "switch"] + [None]:
        own = [(name, types) for name, types in machines if types != "switch" and homes.get(name) == switch]
        if switch or own:
            print(switch or "no switch")
        for name, types in own:
            print(f"  {name:<12} {types:<12} {' '.join(holders.get(name, ['-']))}")
    return 0
