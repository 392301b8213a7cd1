"""The words that are commands of labctl: each makes its script, and tells the replies."""
import re

from .codes import REFUSED, USAGE, Wrong
from .texts import Command, Text

PLAIN = {"out": "swapout", "delete": "delete", "show": "show"}
EXAMPLES = {
    "set": "lab set demo/rack.ptop tells lab 2 8 1: two switches, eight machines, a trunk; lab -n set FILE tries a text",
    "status": "a line as exp ring in 4 4: ring is in, with 4 machines and 4 VLAN ids; free 4 46: so many nobody claims",
    "audit": "audit 0: the devices hold what the lab wants; lacks s1 2 100: port 2 of s1 isn't in VLAN 100",
    "recover": "recovered 1 0: one experiment was settled, and none is stuck still",
    "create": "lab create ring demo/ring.ns tells created ring 4 4: four virtual nodes and four segments; lab create A --tcl old.ns",
    "solve": "lab solve ring > place tells the first lines least ring 0, the place, end ring",
    "in": "lab in ring; lab in ring 7 with another seed; lab in ring PLACE, a file with lines node V MACHINE TYPE and plug V:K MACHINE:IFACE",
    "modify": "lab modify ring demo/ring.ns; lab modify ring new.top PLACE",
    "batch": "lab batch 50 FILE, a file with lines promise pc 2 100 200 and run ring 1 60",
    "out": "lab out ring tells out ring: its machines are free again",
    "delete": "lab delete ring tells deleted ring; it has to be out",
    "show": "lab show ring: nodes, links, and where each node is",
}


def add(words):
    """Adds the parsers."""
    for word in ("status", "audit", "recover"):
        words.add(word, takes="nw", json=True, example=EXAMPLES.get(word))
    for word in PLAIN:
        parser = words.add(word, takes="nvw" if word == "out" else "nw", json=True, example=EXAMPLES.get(word))
        parser.add_argument("exp", metavar="E", type=words.name)
    words.add("set", takes="nw", json=True, example=EXAMPLES["set"]).add_argument("file", metavar="FILE")
    add_swaps(words)
    parser = words.add("batch", takes="nwc", json=True, example=EXAMPLES["batch"])
    parser.add_argument("now", metavar="NOW", type=words.moment)
    parser.add_argument("file", metavar="FILE")


def add_swaps(words):
    """Adds the parsers of what makes, places and changes experiments."""
    parser = words.add("create", takes="nw", json=True, example=EXAMPLES["create"])
    parser.add_argument("exp", metavar="E", type=words.name)
    parser.add_argument("--tcl", action="store_true", help="of an NS file as Emulab has them: see lab flat; the flat text is kept in the folder")
    parser.add_argument("file", metavar="FILE")
    for word, takes in (("solve", "nwc"), ("in", "nvwc")):
        parser = words.add(word, takes, json=True, example=EXAMPLES[word])
        parser.add_argument("exp", metavar="E", type=words.name)
        parser.add_argument("place", metavar="SEED" if word == "solve" else "SEED | PLACE", nargs="?", default="1")
    parser = words.add("modify", takes="nvwc", json=True, example=EXAMPLES["modify"])
    parser.add_argument("exp", metavar="E", type=words.name)
    parser.add_argument("file", metavar="FILE")
    parser.add_argument("place", metavar="SEED | PLACE", nargs="?", default="1")


def is_seed(given):
    """Whether a word is a seed; a number that is none is refused."""
    if not re.fullmatch(r"[0-9]+", given):
        return False
    if len(given) > 20 or int(given) >= 2 ** 64:
        raise Wrong(USAGE, f"{given} is no seed: a number from 0 to {2 ** 64 - 1}; a file of that name is ./{given}")
    return True


def placed(args):
    """Gives the command of `solve` or `in`."""
    if is_seed(args.place):
        return Command(f"{'swapin' if args.word == 'in' else 'solve'} {args.exp} {args.place}")
    if args.word == "solve":
        raise Wrong(USAGE, f"{args.place} is no seed: a number from 0 to {2 ** 64 - 1}")
    return Command(f"swapin-with {args.exp}", Text(args.place))


def changed(args):
    """Gives the command of `modify`."""
    from .words import usage
    if args.file.endswith(".top") == is_seed(args.place):
        raise Wrong(USAGE, usage("modify"))
    if args.file.endswith(".top"):
        return Command(f"modify-with {args.exp}", Text(args.file), Text(args.place))
    return Command(f"modify {args.exp} {args.place}", Text(args.file))


def command_of(args):
    """Gives the command that the words ask for."""
    word = args.word
    if word in PLAIN:
        return Command(f"{PLAIN[word]} {args.exp}")
    if word == "set":
        return Command("ptop", Text(args.file))
    if word == "create" and args.tcl:
        from .flat import created
        return created(args)
    if word == "create":
        return Command(f"{'create-top' if args.file.endswith('.top') else 'create'} {args.exp}", Text(args.file))
    if word in ("in", "solve"):
        return placed(args)
    if word == "modify":
        return changed(args)
    if word == "batch":
        return Command(f"batch {args.now}", Text(args.file))
    return Command(word)


def looked_at(args, lab, command):
    """Refuses what may not be done beside what the folder has: a new lab over a damaged one, a batch or a place beside machines out of service."""
    if args.word == "set":
        from .damage import refuse
        refuse(lab)
    elif args.word == "batch" and (off := lab.off()):
        raise Wrong(REFUSED, f"a batch searches past no machine, and {min(off)} is out of service; lab in each run, or lab on {min(off)}")
    elif args.word in ("in", "modify"):
        from .service import refuse_place
        refuse_place(lab, command)


def run(args, lab):
    """Does the command, or tries it on a copy."""
    command = command_of(args)
    looked_at(args, lab, command)
    if lab.dry:
        from .dry import dry
        return dry(lab, lambda copied: copied.do(command, new=True))
    status = lab.do(command, new=args.word == "set")
    if status == 0 and args.word == "create" and args.tcl:
        from .flat import keep
        keep(lab.path, command)
    if lab.json:
        from .values import tell
        tell(args.word, lab.replies, status)
    return status
