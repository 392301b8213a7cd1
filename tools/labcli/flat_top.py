"""A top text of an NS file: the program's own expansion of the flat text, with what an NS text here can't hold: desires, weights of
classes, and rates by direction."""
from .codes import REFUSED, UNKNOWN, Wrong
from .flat_text import FlatText
from .running import Run
from .texts import Command, Text
from .timed import is_shaped, rates_of

SWITCH = b"ptop 1\nnode s1 switch\n"
# A delay for which a link is shaped, where only what a top text holds shapes it. The pipes' own rates take its place.
SHAPING = "2ms"


def with_loss(rates, ppm):
    return (*rates[:2], ppm)


class Ways:
    """The rates of the pipes of a link or LAN: for a link one pair, there from its first node and back; for a LAN a pair for each member, to
    the LAN and from it."""

    def __init__(self, link):
        self.link = link
        kbps, micros, _ = rates_of(link)
        half = micros // 2 if link.is_lan else micros
        self.there = [(kbps, half, 0)] * (len(link.ends) if link.is_lan else 1)
        self.back = [(kbps, micros - half if link.is_lan else micros, 0)] * len(self.there)
        for change in link.changes:
            getattr(self, change[0])(*change[1:])

    def loss(self, ppm):
        """`tb-set-link-loss` and `tb-set-lan-loss`, of which the latter loses on the way to the LAN"""
        self.there = [with_loss(rates, ppm) for rates in self.there]
        if not self.link.is_lan:
            self.back = [with_loss(rates, ppm) for rates in self.back]

    def from_node(self, source, rates):
        """The rates of a link from a node on; of a LAN from a member to it."""
        at = self.link.ends.index(source)
        if self.link.is_lan:
            self.there[at] = tuple(rates)
        else:
            (self.back if at else self.there)[0] = tuple(rates)

    def ways(self, node, rates):
        """The rates of a LAN's member, to the LAN and from it."""
        at = self.link.ends.index(node)
        self.there[at], self.back[at] = tuple(rates[:3]), tuple(rates[3:])

    def member(self, node, kinds, rates):
        """Rates of a LAN's member, as `make-lan` has them: half of the delay each way, and the loss to the LAN."""
        at = self.link.ends.index(node)
        there, back = list(self.there[at]), list(self.back[at])
        for kind, number in zip(kinds, rates):
            if kind == "bandwidth":
                there[0] = back[0] = number
            elif kind == "delay":
                there[1], back[1] = number // 2, number - number // 2
            else:
                there[2] = number
        self.there[at], self.back[at] = tuple(there), tuple(back)

    def is_shaped(self):
        return any(is_shaped(rates) for rates in self.there + self.back)

    def kbps(self, segment):
        """Gives the kbps of a segment: the most that its pipes let through."""
        tail = segment.rpartition(".m")[2]
        members = [int(tail) - 1] if self.link.is_lan and tail.isdecimal() and ".m" in segment else range(len(self.there))
        return max(max(self.there[at][0], self.back[at][0]) for at in members)


def directed(asked):
    """Gives the pipes of each link or LAN that a top text alone can hold, and has them shaped."""
    found = {}
    for link in asked.links.values():
        if any(change[0] != "loss" for change in link.changes) and rates_of(link):
            ways = Ways(link)
            if ways.is_shaped():
                found[link.word] = ways
            if ways.is_shaped() and not is_shaped(rates_of(link)):
                words = next(it.words for it in asked.statements if it.made is link)
                words[4 if link.is_lan else 5] = SHAPING
    return found


def expanded(block, path):
    """Gives the top text that the program makes of a flat text."""
    command = Command("create x", Text(path, block))
    run = Run(None, quiet=True)
    status = run.of(SWITCH + command.script() + b"show x\n")
    if status or not run.replies[1].startswith("created "):
        raise Wrong(REFUSED if status == REFUSED else UNKNOWN, f"{path}: labctl says {' '.join(run.replies[1:2])} of the flat text")
    return run.replies[3:-1]


class TopText:
    """The lines of a top text, as they are patched."""

    def __init__(self, flat):
        self.asked, self.ways = flat.asked, directed(flat.asked)
        self.text = FlatText(flat.asked, flat.noted.run)
        self.nodes = list(self.asked.nodes.values())
        self.by_name = {self.text.called(word): ways for word, ways in self.ways.items()}
        self.lines = [" ".join(self.patched(line.split(" "))) for line in expanded(self.text.block(), flat.path)]

    def patched(self, words):
        """Gives the words of a line with what the flat text couldn't hold."""
        if words[0] == "make-vclass":
            return [*words[:2], str(self.asked.weights.get(words[1], words[2])), *words[3:]]
        if words[0] == "node" and self.nodes:
            return [*words, *(f"{name}:{weight}" for name, weight in self.nodes.pop(0).desires.items())]
        if words[0] == "link" and words[2] in self.by_name:
            return [*words[:3], str(self.by_name[words[2]].kbps(words[1])), *words[4:]]
        if words[0] == "pipe" and words[1].rpartition(".d")[0] in self.by_name:
            name, _, number = words[1].rpartition(".d")
            ways, at = self.by_name[name], int(number or 1) - 1
            return [*words[:4], *(str(it) for it in (*ways.there[at], *ways.back[at]))]
        return words


def top_text(flat):
    """Gives the lines of the top text of a file, and has the program take them."""
    lines = TopText(flat).lines
    run = Run(None, quiet=True)
    run.of(SWITCH + Command("create-top x", Text(flat.path, "".join(f"{line}\n" for line in lines).encode())).script())
    words = run.replies[-1].split(" ")
    if words[0] == "bad":
        raise Wrong(REFUSED, f"{flat.path}: the line `{lines[int(words[2]) - 1]}` of the top text has the fault {words[3]}")
    return lines
