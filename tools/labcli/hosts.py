"""The word `hosts`: the names and addresses of an experiment, for /etc/hosts or for Ansible."""
import re

from .codes import REFUSED, Wrong


def add(words):
    """Adds the parser."""
    parser = words.add("hosts", example="lab hosts ring > hosts; lab hosts --ansible ring > inventory")
    parser.add_argument("exp", metavar="E", type=words.name)
    parser.add_argument("--ansible", action="store_true", help="an inventory of Ansible: a group for the experiment, and one for each system")


def addresses(exp):
    """Gives each address with its names: the node on its link, the node by the number of its end, and at its first address the node."""
    seen, found = set(), []
    for _, link, _, ends in exp.ends():
        for node, number, address in ends:
            if address:
                found.append((address, [f"{node}-{link}", f"{node}-{number}", *([node] if node not in seen else [])]))
                seen.add(node)
    return found


def hosts(exp):
    """Gives the lines of a text for /etc/hosts."""
    told = [f"{address}\t{' '.join(names)}" for address, names in addresses(exp)]
    return [f"# {exp.name}, which is {exp.phase}", "127.0.0.1\tlocalhost", *told]


def group(*words):
    """Gives the name of a group, of letters, digits and _."""
    name = re.sub(r"[^A-Za-z0-9_]", "_", "_".join(words))
    return name if not name[0].isdigit() else f"_{name}"


def inventory(exp):
    """Gives the lines of an inventory: each virtual node at its machine, by its system."""
    machines = dict(exp.places())
    groups = {}
    for words in exp.of("node"):
        groups.setdefault(group(exp.name, words[3]), []).append(words)
    lines = []
    for name, nodes in groups.items():
        lines += [f"[{name}]", *[f"{words[1]} ansible_host={machines[words[1]]} node_type={words[2]}" for words in nodes], ""]
    return [*lines, f"[{group(exp.name)}:children]", *groups]


def run(args, lab):
    """Tells the text."""
    exp = lab.shown(args.exp)[0]
    if args.ansible and exp.phase != "in":
        raise Wrong(REFUSED, f"{exp.name} is {exp.phase}, so its nodes have no machines; lab in {exp.name} first")
    print("\n".join(inventory(exp) if args.ansible else hosts(exp)))
    return 0
