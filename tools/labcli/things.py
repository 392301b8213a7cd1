"""Nodes, links and LANs as an NS file asks for them, and the statements of a flat text."""


class Thing:
    """A node, a link or a LAN: its word, its line, and the variable of the file that names it, if one does."""

    def __init__(self, call, variable):
        self.word, self.line, self.variable = call.result, call.line, variable


class Node(Thing):
    """A node, with its desires and their weights in thousandths."""

    def __init__(self, call, variable):
        super().__init__(call, variable)
        self.desires = {}


class Link(Thing):
    """A link or a LAN: its nodes, its rates as quantities (None where they aren't readable), and what changes them, in order."""

    def __init__(self, call, variable, ends, is_lan):
        super().__init__(call, variable)
        self.ends, self.is_lan = ends, is_lan
        self.bandwidth = self.delay = None
        self.changes, self.events = [], []
        self.is_simplex = False

    def kind(self):
        return "lan" if self.is_lan else "link"


class Statement:
    """A command of a flat text: the line of the file that asks for it, its words, and the thing that it makes. Words may be things' words."""

    def __init__(self, line, words, made=None):
        self.line, self.words, self.made = line, words, made
