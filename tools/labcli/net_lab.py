"""A lab as a network of frames: its cables, what its devices hold, and what its experiments want."""
import re
from typing import NamedTuple

from .codes import REFUSED, Wrong

NAME = r"[A-Za-z0-9_.-]{1,32}"
NUMBER = r"[0-9]{1,20}"
ROW = re.compile(rf"row ({NAME}) ({NUMBER}) ({NUMBER})")
NODE = re.compile(rf"node {NAME} \S+( \S+)?")
PIPE = re.compile(rf"pipe ({NAME}) {NUMBER} ({NAME}) ({NAME})" + rf" ({NUMBER})" * 6)
# A loss is counted in millionths: this one loses all.
ALL = 1_000_000


class Point(NamedTuple):
    """A row: the port of a switch in a VLAN."""
    switch: str
    port: int
    vlan: int


class End(NamedTuple):
    """The interface of a machine in a VLAN."""
    machine: str
    interface: str
    vlan: int

    def __str__(self):
        return f"{self.machine}:{self.interface} {self.vlan}"


class Owner(NamedTuple):
    """A link or LAN of an experiment; the link is empty where the experiment moves."""
    exp: str
    link: str

    def __str__(self):
        return f"{self.exp} {self.link or 'moving'}"


class Rates(NamedTuple):
    """What one direction of a pipe does to frames: kbps, a delay in microseconds, and a loss in millionths."""
    kbps: int
    delay: int
    loss: int


# A direction of a pipe that does nothing to frames.
PLAIN = Rates(0, 0, 0)


class Pipe(NamedTuple):
    """A pipe between two interfaces of a machine, with the rates from the first to the second, and back."""
    machine: str
    first: str
    second: str
    there: Rates
    back: Rates


def is_of_host(address):
    """Whether an address is one that a host can have in its subnet of 256."""
    parts = [int(it) for it in address.split(".")] if re.fullmatch(r"[0-9]{1,3}(\.[0-9]{1,3}){3}", address) else [0]
    return max(parts) < 256 and 0 < parts[0] < 224 and parts[0] != 127 and 0 < parts[-1] < 255


class Segment(NamedTuple):
    """A segment of an experiment that is in, with its ends."""
    owner: Owner
    ends: list


class Cables:
    """The machines, switches and cables of a lab's text."""

    def __init__(self, text):
        lines = [line.split() for line in text]
        nodes = [words for words in lines if words[:1] == ["node"]]
        self.switches = [words[1] for words in nodes if words[2] == "switch"]
        self.machines = {words[1]: [] for words in nodes if words[2] != "switch"}
        self.ports, self.trunks = {}, []
        for words in lines:
            if words[:1] == ["link"]:
                (one, at), (other, port) = words[2].split(":"), words[3].split(":")
                if one in self.machines:
                    self.machines[one].append(at)
                    self.ports[one, at] = (other, int(port))
                else:
                    self.trunks.append(((one, int(at)), (other, int(port))))
        # (names stand in commands here, so they are looked at once more)
        for name in {*self.switches, *self.machines, *(it for place in self.ports for it in place)}:
            if not re.fullmatch(NAME, name):
                raise Wrong(REFUSED, f"{name!r} is no name of a lab; see lab view --check")
        self.places = {port: place for place, port in self.ports.items()}
        self.across = {one: other for pair in self.trunks for one, other in (pair, pair[::-1])}

    def point(self, end):
        """Gives the row that an end needs."""
        return Point(*self.ports[end.machine, end.interface], end.vlan)

    def end(self, point):
        """Gives the end at a row, if its port has the cable of a machine."""
        place = self.places.get((point.switch, point.port))
        return End(*place, point.vlan) if place else None


class Held:
    """What the devices hold: rows and pipes."""

    def __init__(self, text):
        self.rows, self.pipes = set(), []
        for number, line in enumerate(text.removesuffix("\n").split("\n") if text else [], 1):
            if (found := ROW.fullmatch(line)) and 0 < int(found[3]) < 4095:
                self.rows.add(Point(found[1], int(found[2]), int(found[3])))
            elif found := PIPE.fullmatch(line):
                numbers = [int(it) for it in found.groups()[3:]]
                self.pipes.append(Pipe(found[1], found[2], found[3], Rates(*numbers[:3]), Rates(*numbers[3:])))
            elif not NODE.fullmatch(line):
                raise Wrong(REFUSED, f"tables:{number}: {line[:60]!r} is no row, node or pipe; mend it by hand")


class Wanted:
    """What the experiments that are in want: segments, pipes between ends, and addresses. Of those that move, the machines."""

    def __init__(self, experiments, moving):
        self.segments, self.pipes, self.addresses, self.owners = [], [], {}, {}
        self.moving = moving
        for exp in experiments:
            self.take(exp)

    def take(self, exp):
        """Takes an experiment that is in."""
        plugs, ends_of = exp.plugs(), {}
        for name, link, _, told in exp.ends():
            owner, ends = Owner(exp.name, link), []
            for node, number, address in told:
                end = End(*plugs[f"{node}:{number}"].split(":"), exp.tags[name])
                ends.append(end)
                ends_of[node, number] = end
                self.owners[end] = owner
                if is_of_host(address):
                    self.addresses[end] = address
            self.segments.append(Segment(owner, ends))
        for _, node, first, second, *numbers in exp.of("pipe"):
            rates = [int(it) for it in numbers]
            self.pipes.append((ends_of[node, int(first)], ends_of[node, int(second)], Rates(*rates[:3]), Rates(*rates[3:])))

    def owner(self, end):
        """Gives whose an end is, or nothing."""
        if end.machine in self.moving:
            return Owner(self.moving[end.machine], "")
        return self.owners.get(end)


def tables_text(path):
    """Gives the text of what the devices of a folder hold, as the next opening would find it."""
    texts = {}
    for name in ("tables", "tables.new", "tables.old"):
        try:
            with open(f"{path}/{name}", "rb") as it:
                texts[name] = it.read()
        except FileNotFoundError:
            pass
    text = texts.get("tables", texts.get("tables.new", b""))
    if b"\0" in text:
        text = texts.get("tables.old", b"")
    return text.decode(errors="replace")


class World:
    """A lab at one moment: its cables, what its devices hold, and what its experiments want."""

    def __init__(self, cables, held, wanted):
        self.cables, self.held, self.wanted = cables, held, wanted

    def ends(self):
        """Gives each end: where a row stands, and where an experiment wants one."""
        standing = {self.cables.end(row) for row in self.held.rows} - {None}
        return sorted(standing | set(self.wanted.owners))


def world_of(lab):
    """Reads the world of a lab in a folder, which is locked while it is copied. What moves there moves still: it is settled in the copy."""
    with lab.copy() as other:
        status, lines = other.look()
        if status or lines[:1] == ["no lab"]:
            raise Wrong(REFUSED, f"no lab can be read in {lab.path}; see lab view --check")
        told = [line.split(" ") for line in lines]
        names = [words[1] for words in told if words[0] == "exp" and words[2] == "in"]
        moving = {words[1]: words[3] for words in told if words[0] == "machine" and words[2] in ("comes", "goes", "stays")}
        cables = Cables([line for line in lines if line.startswith(("node ", "link "))])
        held = Held(tables_text(other.path))
        # (what is asked of labctl settles the experiments that move, so it comes last)
        experiments = other.shown(*names) if names else []
    if lab.folder:
        lab.folder.release()
        lab.folder = None
    return World(cables, held, Wanted(experiments, moving))
