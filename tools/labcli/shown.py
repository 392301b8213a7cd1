"""Experiments as `show` tells them, and the lab's own text."""
import os

from .codes import REFUSED, Wrong


class Shown:
    """An experiment as `show` tells it: its phase, and the lines of its top text and of its solution text, and its VLAN ids."""

    def __init__(self, lines):
        self.name, self.phase = lines[0].split(" ")[1:]
        self.top, self.solution, self.tags, seen = [], [], {}, set()
        for line in lines[1:-1]:
            words = line.split(" ")
            if words[0] == "tag":
                self.tags[words[1]] = int(words[2])
                continue
            is_place = words[0] == "plug" or words[0] == "node" and words[1] in seen
            if words[0] == "node":
                seen.add(words[1])
            (self.solution if is_place else self.top).append(line)

    def of(self, word):
        """Gives the words of each line of the top text that begins with this one."""
        return [line.split(" ") for line in self.top if line.startswith(f"{word} ")]

    def places(self):
        """Gives each virtual node with its machine."""
        return [line.split(" ")[1:3] for line in self.solution if line.startswith("node ")]

    def plugs(self):
        """Gives the machine's interface of each end, as `pc1:eth0` of `a:0`."""
        return dict(line.split(" ")[1:3] for line in self.solution if line.startswith("plug "))

    def ends(self):
        """Gives each segment with its ends: its name, owner, kbps, and of each end the virtual node, its number there, and its address."""
        counts, segments = {}, []
        for _, name, owner, kbps, *ends in self.of("link"):
            told = []
            for end in ends:
                node, _, address = end.partition("=")
                told.append((node, counts.get(node, 0), address))
                counts[node] = counts.get(node, 0) + 1
            segments.append((name, owner, int(kbps), told))
        return segments


def shown_of(replies):
    """Gives the experiments of the replies to commands `show`."""
    experiments, lines = [], []
    for line in replies:
        if not lines and not line.startswith("show "):
            raise Wrong(REFUSED, line)
        lines.append(line)
        if line.startswith("end "):
            experiments.append(Shown(lines))
            lines = []
    return experiments


def journal_text(path):
    """Gives the lab's own text: the first record of the side of the journal with the greater epoch. Nothing is changed."""
    sides = []
    for name in ("journal.a", "journal.b"):
        if os.path.exists(f"{path}/{name}"):
            with open(f"{path}/{name}", "rb") as it:
                sides.append(it.read())
    sides = [side for side in sides if len(side) > 27 and side[0] == 0xA5 and side[17] == 0xA5 and side[22] == 1]
    if not sides:
        raise Wrong(REFUSED, f"no lab in {path}; begin with: lab -d {path} set FILE")
    live = max(sides, key=lambda side: int.from_bytes(side[9:17], "little"))
    return live[27:27 + int.from_bytes(live[23:27], "little")].decode().splitlines()
