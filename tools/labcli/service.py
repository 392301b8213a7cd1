"""Machines out of service: the words `off` and `on`, and the list in the folder."""
import os
import sys

from .codes import FOLDER, REFUSED, Wrong
from .log import append, plain, stamp, user

NAME = "off"


def add(words):
    """Adds the parsers."""
    parser = words.add("off", json=True, example='lab off pc7 "fan is broken" takes it out; lab off lists; lab on pc7 puts it back')
    parser.add_argument("machine", metavar="MACHINE", nargs="?", type=words.name, completes="machine")
    parser.add_argument("reason", metavar="REASON", nargs="*", completes="none")
    parser = words.add("on", example="lab on pc7")
    parser.add_argument("machine", metavar="MACHINE", type=words.name, completes="off")


def listed(path):
    """Gives each machine that is out of service in a folder, with the time, the user and the reason."""
    found = {}
    try:
        with open(f"{path}/{NAME}", encoding="utf-8", errors="backslashreplace") as it:
            for words in (line.rstrip("\n").split("\t") for line in it):
                if words[0] == "off" and len(words) == 5:
                    found[words[1]] = words[2:]
                elif words[0] == "on" and len(words) > 1:
                    found.pop(words[1], None)
    except FileNotFoundError:
        pass
    return found


def refuse_place(lab, command):
    """Refuses a place that has a machine out of service which the experiment doesn't hold already."""
    off = lab.off()
    if not off or command.word() not in ("swapin-with", "modify-with"):
        return
    asked = {words[2] for words in (line.decode(errors="replace").split() for line in command.texts[-1].lines) if words[:1] == ["node"] and len(words) > 2}
    own = set()
    if command.word() == "modify-with" and asked & off:
        own = {machine for exp in lab.shown(command.head.split(" ")[1]) for _, machine in exp.places()}
    if taken := sorted(asked & off - own):
        raise Wrong(REFUSED, f"{taken[0]} is out of service; place the node elsewhere, or put it back: lab on {taken[0]}")


def run(args, lab):
    """Takes a machine out of service, puts one back, or lists."""
    if not os.path.isdir(lab.path):
        raise Wrong(FOLDER, f"there is no folder {lab.path}; name one by -d")
    if args.word == "off" and args.machine is None:
        return tell(lab)
    from .looks import looked
    from .stock import Stock
    if args.machine not in Stock(lab.text()).machines:
        raise Wrong(REFUSED, f"the lab has no machine {args.machine}; lab map tells its machines")
    is_off = args.machine in listed(lab.path)
    if is_off == (args.word == "off"):
        raise Wrong(REFUSED, f"{args.machine} is {'out of service already; lab off lists' if is_off else 'in service'}")
    append(f"{lab.path}/{NAME}", "\t".join([args.word, args.machine, stamp(), user(), plain(" ".join(getattr(args, "reason", [])))]))
    lab.tell([f"{args.word} {args.machine}"])
    if lab.json:
        from .values import tell as tell_value
        tell_value(args.word, lab.replies, 0)
    holder = looked(lab).held.get(args.machine) if args.word == "off" else None
    if holder:
        print(f"  {holder} holds {args.machine}, and keeps it: lab out {holder} frees it", file=sys.stderr)
    return 0


def tell(lab):
    """Lists the machines that are out of service, each with who holds it still."""
    from .looks import looked
    found = listed(lab.path)
    held = looked(lab).held if found else {}
    if lab.json:
        import json
        print(json.dumps([{"machine": name, "since": since, "user": by, "reason": why, "held": held.get(name)} for name, (since, by, why) in found.items()]))
        return 0
    for name, (since, by, why) in found.items():
        print(f"{name}  {since}  {by}{'  ' + why if why else ''}{'  (held by ' + held[name] + ')' if name in held else ''}")
    return 0
