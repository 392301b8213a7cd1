"""The network that an NS file's commands ask for: statements that a flat text has, what is left out of it, and what a top text may hold."""
from . import quantities
from .emulab import left_out
from .noted import Fault
from .things import Link, Node, Statement

# The most nodes, and links and LANs, of an NS text.
MOST_NODES, MOST_LINKS = 256, 512

# What is told where the manual's tables have no row for a command that is left out, by how it begins.
OTHERWISE = {
    "tb-": "no such setting is here, and nothing is done for it",
    "new": "agents and other objects do nothing here; start what they do once the experiment is in",
    ":o": "it is a setting of an agent or another object, which do nothing here",
    ":": "this word makes no node, link or LAN, and nothing is done for it",
    "": "it is a setting of a class, and what isn't a node, link or LAN does nothing here",
}
ALIKE = "both directions of a link, and all members of a LAN, are alike here; lab flat --top holds it"


def weight_of(words):
    """Gives a weight in thousandths, of a list with its word; None where it is none."""
    parts = quantities.split(words[0]) if words else None
    return int(parts[0] * 1000) if parts else None


class Asked:
    """All that the commands ask for."""

    def __init__(self, noted):
        self.noted = noted
        self.nodes, self.links, self.statements, self.told, self.weights = {}, {}, [], {}, {}
        self.makers, self.other, self.gone, self.types, self.timed = {}, {}, {}, set(), []
        for line in noted.says:
            self.leave(line, left_out(["puts"]) or "it prints nothing here")
        for call in noted.calls:
            self.take(call)

    def tell(self, line, what, sentence, flat_only=False):
        """Notes what is told of a line, once; flat_only: a top text holds it, or tells it otherwise."""
        self.told[line, what, sentence, flat_only] = None

    def leave(self, line, sentence, flat_only=False):
        self.tell(line, "left out", sentence, flat_only)

    def change(self, line, sentence, flat_only=False):
        self.tell(line, "changed", sentence, flat_only)

    def keep(self, line, *words, made=None):
        self.statements.append(Statement(line, list(words), made))

    def take(self, call):
        """Takes a command: keeps it, changes it, or leaves it out."""
        words = [self.other.get(word, word) for word in call.words]
        gone = next((self.gone[word] for word in words if word in self.gone), None)
        object_of = "$ns" if words[0] == ":ns" else "$node" if words[0] in self.nodes else None
        method = METHODS.get(f"{object_of} {words[1]}" if object_of else words[0])
        if gone:
            self.leave(call.line, gone)
        elif method:
            method(self, call, words)
        else:
            self.leave_unknown(call, words)

    def leave_unknown(self, call, words):
        """Leaves out a command that has no meaning for a network."""
        told = self.makers.get(words[0]) or left_out(words) or OTHERWISE[next(it for it in OTHERWISE if words[0].startswith(it))]
        if call.result:
            self.makers[call.result] = told
        self.leave(call.line, told)

    def quantity(self, call, read, word):
        """Reads a quantity, and tells what was changed of it; None where it can't be read."""
        quantity = read(word)
        if quantity and quantity.told:
            self.change(call.line, quantity.told)
        return quantity

    def shortened(self, call, words, count):
        """Gives so many words of a command, and tells of those behind them."""
        if len(words) > count:
            self.change(call.line, f"without {' '.join(words[count:])}")
        return words[:count]

    def simulator(self, call, words):
        """`new Simulator`, whose other forms make objects that do nothing"""
        if words[1:2] != ["Simulator"]:
            return self.leave_unknown(call, words)
        return self.keep(call.line, *words[:2])

    def source(self, call, words):
        """`source tb_compat.tcl`"""
        self.keep(call.line, *words)

    def node(self, call, words):
        """`$ns node`"""
        if len(self.nodes) >= MOST_NODES:
            raise Fault(call.line, "limit", f"more than {MOST_NODES} nodes; make the experiment smaller")
        self.nodes[call.result] = Node(call, self.noted.names.get(call.result))
        self.keep(call.line, *self.shortened(call, words, 2), made=self.nodes[call.result])

    def rated(self, call, link, words, at):
        """Reads the rates of a link or LAN, at a place of its words, and gives these words."""
        if len(self.links) >= MOST_LINKS:
            raise Fault(call.line, "limit", f"more than {MOST_LINKS} links and LANs; make the experiment smaller")
        rates = words[at:at + 2]
        for number, (name, read) in enumerate((("bandwidth", quantities.bandwidth), ("delay", quantities.delay))):
            quantity = self.quantity(call, read, rates[number]) if number < len(rates) else None
            setattr(link, name, quantity)
            if quantity:
                rates[number] = quantity.text
        self.links[call.result] = link
        return rates

    def link(self, call, words):
        """`$ns duplex-link A B BW DELAY QUEUE`, and `simplex-link`"""
        is_simplex = words[1] == "simplex-link"
        back = is_simplex and next((it for it in self.links.values() if it.is_simplex and it.ends == words[3:1:-1]), None)
        if back:
            return self.way_back(call, back, words)
        link = Link(call, self.noted.names.get(call.result), words[2:4], False)
        link.is_simplex = is_simplex
        rates = self.rated(call, link, words, 4)
        if is_simplex:
            self.change(call.line, "duplex-link in its place: links go both ways here")
        if len(rates) == 2 and words[6:7] != ["DropTail"]:
            self.change(call.line, f"DropTail in place of {' '.join(words[6:7]) or 'no queue'}: a delay node has no other queue")
        queue = ["DropTail"] if len(rates) == 2 else []
        return self.keep(call.line, ":ns", "duplex-link", *words[2:4], *rates, *queue, made=link)

    def way_back(self, call, link, words):
        """A `simplex-link` back along another one: the other direction of that link."""
        self.other[call.result] = link.word
        link.is_simplex = False
        self.directed(call, link, [words[2], *words[4:6], "0"])

    def lan(self, call, words):
        """`$ns make-lan LIST BW DELAY`"""
        ends = words[2].split() if len(words) > 2 else []
        if len(ends) < 2:
            self.gone[call.result] = "a LAN has at least two nodes here"
            return self.leave(call.line, self.gone[call.result])
        link = Link(call, self.noted.names.get(call.result), ends, True)
        rates = self.rated(call, link, words, 3)
        self.shortened(call, words, 5)
        return self.keep(call.line, ":ns", "make-lan", ends, *rates, made=link)

    def routes(self, call, words):
        """`$ns rtproto ..`"""
        if words[2:] not in (["Static"], ["Manual"]):
            self.change(call.line, f"Static in place of {' '.join(words[2:])}: routes are set inside the machines")
            words = [*words[:2], "Static"]
        self.keep(call.line, *words)

    def at(self, call, words):
        """`$ns at TIME EVENT`, of a link or LAN; other events are left out"""
        event = words[3].split() if len(words) == 4 else []
        event = [self.other.get(word, word) for word in event]
        if not event or event[0] not in self.links or event[1:2] not in (["up"], ["down"], ["modify"], ["rates"]):
            return self.leave(call.line, left_out(words) or OTHERWISE["new"])
        self.timed.append((call, words[2], event))
        self.statements.append(Statement(call.line, [":ns", "at", len(self.timed) - 1]))
        return None

    def of_node(self, call, words):
        """A setting of a node by one word"""
        if words[0] == "tb-set-hardware":
            self.types.update(words[2:3])
        self.keep(call.line, *self.shortened(call, words, 3))

    def address_between(self, call, words):
        """`tb-set-ip-interface A B IP`"""
        between = [it for it in self.links.values() if not it.is_lan and sorted(it.ends) == sorted(words[1:3])]
        if not between:
            return self.leave(call.line, "there is no link between these nodes")
        return self.keep(call.line, "tb-set-ip-link", words[1], between[0].word, *words[3:4])

    def address(self, call, words):
        """`tb-set-ip-link NODE LINK IP`, and of a LAN"""
        link = self.links.get(words[2]) if len(words) > 2 else None
        self.keep(call.line, f"tb-set-ip-{link.kind()}" if link else words[0], *self.shortened(call, words, 4)[1:])

    def lossy(self, call, words):
        """`tb-set-link-loss LINK LOSS`, also by the two nodes of a link, and of a LAN"""
        if len(words) == 4:
            between = [it.word for it in self.links.values() if not it.is_lan and sorted(it.ends) == sorted(words[1:3])]
            words = [words[0], *between[:1], words[3]]
        link = self.links.get(words[1]) if len(words) == 3 else None
        loss = self.quantity(call, quantities.loss, words[2]) if link else None
        if loss:
            link.changes.append(("loss", loss.number))
        self.keep(call.line, f"tb-set-{link.kind()}-loss" if link else words[0], *words[1:2], *([loss.text] if loss else words[2:]))

    def soft(self, call, words):
        """`tb-make-soft-vtype NAME LIST`"""
        self.grouped(call, words[1:2], words[2:])

    def hard(self, call, words):
        """`tb-make-hard-vtype NAME LIST`"""
        self.change(call.line, "tb-make-soft-vtype in its place, of weight 500; lab flat --top holds that it is hard", True)
        self.grouped(call, words[1:2], words[2:], 1000)

    def weighted(self, call, words):
        """`tb-make-weighted-vtype NAME WEIGHT LIST`"""
        self.change(call.line, "tb-make-soft-vtype in its place, of weight 500; lab flat --top holds the weight", True)
        self.grouped(call, words[1:2], words[3:], weight_of(words[2:3]))

    def grouped(self, call, name, types, weight=None):
        """A class of types. It stands before all where a node asked for it already."""
        statement = Statement(call.line, ["tb-make-soft-vtype", *name, " ".join(" ".join(types).split())])
        self.statements.insert(0 if self.types & {*name} else len(self.statements), statement)
        if name and weight is not None:
            self.weights[name[0]] = weight

    def desire(self, call, words):
        """`$node add-desire NAME WEIGHT`"""
        self.leave(call.line, "a top text holds it: lab flat --top; or ask for a type of machines that have it", True)
        if len(words) > 3:
            self.nodes[words[0]].desires[words[2]] = weight_of(words[3:4]) or 0

    def directed(self, call, link, given):
        """The rates of one direction of a link: from a node on, its bandwidth, delay and loss."""
        source, *rates = given
        rates = [read(word) for read, word in zip((quantities.bandwidth, quantities.delay, quantities.loss), rates)]
        self.by_top(call, link, rates, ("from_node", source))

    def by_top(self, call, link, rates, change):
        """Notes a change of rates that a top text alone holds."""
        if not link or None in rates or change[1] not in link.ends:
            return self.leave(call.line, "its words are no link or LAN, a node on it, and rates")
        link.changes.append((*change, [rate.number for rate in rates]))
        return self.leave(call.line, left_out(call.words) or ALIKE, True)

    def simplex(self, call, words):
        """`tb-set-link-simplex-params LINK FROM DELAY BW LOSS`"""
        link = self.links.get(words[1]) if len(words) == 6 else None
        if not link:
            return self.by_top(call, None, [], ())
        return self.directed(call, link, [words[2], words[4], words[3], words[5]])

    def member_simplex(self, call, words):
        """`tb-set-lan-simplex-params LAN NODE DELAY BW LOSS DELAY BW LOSS`, to the LAN and from it"""
        link = self.links.get(words[1]) if len(words) == 9 else None
        rates = [read(words[at]) for at, read in zip((4, 3, 5, 7, 6, 8), (quantities.bandwidth, quantities.delay, quantities.loss) * 2)] if link else []
        self.by_top(call, link, rates, ("ways", words[2]) if link else ())

    def member(self, call, words):
        """`tb-set-node-lan-delay NODE LAN DELAY`, and `-bandwidth`, `-loss`, and `-params` with all three"""
        link = self.links.get(words[2]) if len(words) > 3 else None
        what = words[0].rpartition("-")[2]
        kinds = ["delay", "bandwidth", "loss"] if what == "params" else [what]
        rates = [getattr(quantities, kind)(word) for kind, word in zip(kinds, words[3:])] if link else []
        self.by_top(call, link if len(rates) == len(kinds) else None, rates, ("member", words[1], kinds) if link else ())


METHODS = {
    "new": Asked.simulator, "source": Asked.source, "$ns node": Asked.node, "$ns duplex-link": Asked.link, "$ns simplex-link": Asked.link,
    "$ns make-lan": Asked.lan, "$ns newLan": Asked.lan, "$ns rtproto": Asked.routes, "$ns at": Asked.at,
    "tb-set-node-os": Asked.of_node, "tb-set-hardware": Asked.of_node, "tb-fix-node": Asked.of_node, "tb-set-ip": Asked.of_node,
    "tb-set-multiplexed": Asked.of_node, "tb-set-ip-interface": Asked.address_between, "tb-set-ip-link": Asked.address,
    "tb-set-ip-lan": Asked.address, "tb-set-link-loss": Asked.lossy, "tb-set-lan-loss": Asked.lossy, "tb-make-soft-vtype": Asked.soft,
    "tb-make-hard-vtype": Asked.hard, "tb-make-weighted-vtype": Asked.weighted, "$node add-desire": Asked.desire,
    "tb-set-link-simplex-params": Asked.simplex, "tb-set-lan-simplex-params": Asked.member_simplex,
    **{f"tb-set-node-lan-{kind}": Asked.member for kind in ("delay", "bandwidth", "loss", "params")},
}
