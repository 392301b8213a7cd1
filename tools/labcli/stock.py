"""The machines and trunks of a lab's own text, and what of them is left for one experiment."""


class Machine:
    """A machine: how many virtual nodes of each type it can be, its features with their weights, and its interfaces."""

    def __init__(self, words):
        self.name = words[1]
        at = words.index("-") if "-" in words else len(words)
        self.types = {kind: int(count or 1) for kind, _, count in (it.partition(":") for it in words[2:at])}
        self.features = {name: int(weight) for name, _, weight in (it.partition(":") for it in words[at + 1:])}
        self.rates, self.switches = [], []

    def fits(self, kinds):
        """Gives how many virtual nodes of one of these types the machine can be."""
        return max((self.types.get(kind, 0) for kind in kinds), default=0)

    def fast(self, kbps):
        """Gives how many interfaces have so many kbps."""
        return sum(rate >= kbps for rate in self.rates)


class Stock:
    """The machines and the trunks of a lab, each by its name, and the lines of its text."""

    def __init__(self, text):
        self.machines, self.trunks, self.lines, switches = {}, {}, text, set()
        for words in (line.split(" ") for line in text):
            if words[0] == "node" and words[2] == "switch":
                switches.add(words[1])
            elif words[0] == "node":
                self.machines[words[1]] = Machine(words)
            elif words[0] == "link":
                owner, at = words[2].partition(":")[0], words[3].partition(":")[0]
                if owner in switches:
                    self.trunks[words[1]] = (owner, at, int(words[4]))
                elif owner in self.machines:
                    self.machines[owner].rates.append(int(words[4]))
                    self.machines[owner].switches.append(at)

    def parts(self, names, number):
        """Gives parts of these machines: those at one switch, and at two that a trunk joins, of at least so many machines; small parts first."""
        homes = {}
        for name in names:
            for switch in set(self.machines[name].switches):
                homes.setdefault(switch, set()).add(name)
        pairs = [homes.get(a, set()) | homes.get(b, set()) for a, b, _ in self.trunks.values()]
        found = [part for part in [*homes.values(), *pairs] if number <= len(part) < len(names)]
        return sorted(found, key=len)


class Left:
    """What of a lab is left for one experiment: the machines, the kbps of each trunk, and how many VLAN ids."""

    def __init__(self, stock, machines, trunks, ids):
        self.stock, self.machines, self.trunks, self.ids = stock, machines, trunks, ids

    def text(self, part=None, fewest_first=False):
        """Gives the text of a lab that has what is left, or a part of its machines; perhaps those with fewest interfaces first."""
        names = self.machines if part is None else [name for name in self.machines if name in part]
        if fewest_first:
            names = sorted(names, key=lambda name: len(self.stock.machines[name].rates))
        kept, nodes, others, links = set(names), {}, [], []
        for line in self.stock.lines:
            words = line.split(" ")
            if words[0] == "node" and words[2] != "switch":
                nodes[words[1]] = line
            elif words[0] == "node":
                others.append(line)
            elif words[0] == "link" and words[1] in self.stock.trunks:
                left = self.trunks.get(words[1], int(words[4]))
                links += [" ".join([*words[:4], str(left)])] if left else []
            elif words[0] == "link" and words[2].partition(":")[0] in kept:
                links.append(line)
        return [f"vlans 2 {1 + min(max(self.ids, 1), 4093)}", *others, *[nodes[name] for name in names], *links]


def left_for(lab, name, off=(), with_own=True):
    """Gives what is left for an experiment of this name: the machines that it holds itself are free for its change, and its kbps of trunks
    too, at most all of its links on each trunk. So a trunk may have less in truth: the program judges each place."""
    from .looks import looked
    stock, found = Stock(lab.text()), looked(lab)
    shown = lab.shown(name) if with_own and name in found.held.values() else []
    own = sum(kbps for exp in shown for _, _, kbps, _ in exp.ends())
    trunks = {trunk: min(left + own, stock.trunks[trunk][2]) for trunk, left in found.trunks.items()}
    free = [machine for machine in stock.machines if found.held.get(machine, name) == name and machine not in off]
    return Left(stock, free, trunks, lab.free_ids())
