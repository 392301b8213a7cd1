"""The plan of a network: from what devices hold to lists of commands of iproute2. Nothing is done here.

A device has a namespace, a switch and a machine alike. Where the kernel's bridges filter VLANs, a switch is one bridge: trunk ports are
tagged, the port of a machine is untagged where it has one row, and tagged where it has more, with a VLAN interface for each at the machine.
Where they don't, a switch is a bridge for each VLAN id, and a cable is one for each of its rows.
"""
import re
from typing import NamedTuple, Optional

from .codes import REFUSED, Wrong
from .net_joints import Joints
from .net_lab import ALL, End

# A name that an interface can have here as it is. A dot stands before a VLAN id.
INTERFACE = re.compile(r"[A-Za-z][A-Za-z0-9_-]{0,9}")
TAKEN = ("lo", "all", "default", "br")
# A bridge that forwards at once, and knows nothing but where it saw an address.
BRIDGE = "type bridge stp_state 0 forward_delay 0 mcast_snooping 0"
# So many ports a bridge of Linux has at most.
PORTS = 1023


class Can(NamedTuple):
    """What the kernel can: bridges that filter VLANs, with VLAN interfaces; rates, delays and losses by netem."""
    filtering: bool
    netem: bool


class Batch(NamedTuple):
    """Commands of one tool for the namespace of a device, or for none in particular."""
    tool: str
    device: Optional[str]
    lines: list


def interface_names(interfaces):
    """Gives the name that each interface of a machine has here: its own where all of them can be such, else one by its number."""
    if all(INTERFACE.fullmatch(it) and it not in TAKEN for it in interfaces):
        return {it: it for it in interfaces}
    return {it: f"if{number}" for number, it in enumerate(interfaces)}


class Plan:
    """What is to be made of a lab: batches of commands, and where each end then is."""

    def __init__(self, prefix, world, can):
        self.prefix, self.world, self.cables, self.rows, self.can = prefix, world, world.cables, world.held.rows, can
        self.names = {machine: interface_names(interfaces) for machine, interfaces in self.cables.machines.items()}
        self.vlans = {}
        for row in sorted(self.rows):
            self.vlans.setdefault((row.switch, row.port), []).append(row.vlan)
        # (the interfaces of other machines stay down)
        self.used = {end.machine for end in world.ends()}
        self.joints = Joints(self.cables, world.held, can.netem)
        self.lines, self.notes = {}, [*self.joints.notes]
        self.note_rows()
        self.make()

    def note_rows(self):
        """Notes what no frame can show, and what isn't as its name says."""
        known = {*self.cables.places, *self.cables.across}
        self.notes += [f"row {row.switch} {row.port} {row.vlan}: no cable is at that port" for row in sorted(self.rows)
                       if (row.switch, row.port) not in known]
        self.notes += [f"the interfaces of {machine} are called if0, if1 .. here, in the order of the lab's text"
                       for machine, names in self.names.items() if any(it != name for it, name in names.items())]

    def add(self, stage, tool, device, line):
        """Adds a command. Stages come one after another, each over all devices."""
        self.lines.setdefault((stage, tool, device), []).append(line)

    def batches(self):
        """Gives the batches in their order."""
        devices = {None: 0, **{name: number for number, name in enumerate(self.devices(), 1)}}
        order = sorted(self.lines, key=lambda it: (it[0], devices[it[2]]))
        return [Batch(key[1], key[2], self.lines[key]) for key in order]

    def devices(self):
        """Gives the devices, each of which has a namespace."""
        return [*self.cables.switches, *self.cables.machines]

    def space(self, device):
        """Gives the name of a device's namespace."""
        return f"{self.prefix}-{device}"

    def interface(self, end):
        """Gives the name of the interface of a machine at which an end is."""
        name = self.names[end.machine][end.interface]
        return f"{name}.{end.vlan}" if len(self.vlans.get(self.cables.ports[end.machine, end.interface], ())) > 1 else name

    def make(self):
        """Adds all commands."""
        for device in self.devices():
            self.add(0, "ip", None, f"netns add {self.space(device)}")
        for switch in self.cables.switches:
            self.make_bridges(switch)
        for (machine, interface), port in self.cables.ports.items():
            self.make_cable(machine, self.names[machine][interface], port)
        for one, other in self.cables.trunks:
            self.make_trunk(one, other)
        for machine in sorted(self.used):
            self.add(4, "ip", machine, "link set dev lo up")
        for end, address in self.world.wanted.addresses.items():
            if self.is_there(end):
                self.add(4, "ip", end.machine, f"address add {address}/24 dev {self.interface(end)}")
        for number, joint in enumerate(self.joints.made):
            self.make_joint(joint, f"br.{number}")

    def make_bridges(self, switch):
        """Adds the bridges of a switch: one, or one for each VLAN id."""
        used = sorted({row.vlan for row in self.rows if row.switch == switch})
        ports = sum(at == switch for at, _ in self.vlans)
        if ports > PORTS:
            raise Wrong(REFUSED, f"{ports} ports of {switch} are in VLANs, and a bridge of Linux has {PORTS} at most")
        names = [("br", " vlan_filtering 1 vlan_default_pvid 0")] if self.can.filtering else [(f"br{vlan}", "") for vlan in used]
        for name, filtering in names:
            self.add(1, "ip", switch, f"link add name {name} up {BRIDGE}{filtering}")

    def bridge(self, port, vlan):
        """Gives the words that put an interface of a switch into its bridge; without a row it hangs loose."""
        if port not in self.vlans:
            return ""
        return " master br" if self.can.filtering else f" master br{vlan}"

    def join(self, port, name):
        """Adds the VLANs of an interface of a switch, where its bridge filters."""
        vlans = self.vlans.get(port, ()) if self.can.filtering else ()
        kind = " pvid untagged" if len(vlans) == 1 and port in self.cables.places else ""
        for vlan in vlans:
            self.add(3, "bridge", port[0], f"vlan add vid {vlan} dev {name}{kind}")

    def make_cable(self, machine, name, port):
        """Adds the cable of a machine's interface, or one for each row where bridges don't filter."""
        switch, number = port
        vlans = self.vlans.get(port, ())
        parts = [(f"p{number}", name, vlans[0] if vlans else None)]
        if len(vlans) > 1 and not self.can.filtering:
            parts = [(f"p{number}.{vlan}", f"{name}.{vlan}", vlan) for vlan in vlans]
        for at_switch, at_machine, vlan in parts:
            self.add_cable(switch, at_switch + self.bridge(port, vlan), machine, at_machine)
            if machine in self.used:
                self.add(4, "ip", machine, f"link set dev {at_machine} up")
        if self.can.filtering:
            self.join(port, f"p{number}")
            for vlan in vlans if len(vlans) > 1 else ():
                self.add(4, "ip", machine, f"link add link {name} name {name}.{vlan} up type vlan id {vlan}")

    def add_cable(self, one, first, other, second):
        """Adds a cable between interfaces of two devices."""
        self.add(1, "ip", one, f"link add name {first} up type veth peer name {second} netns {self.space(other)}")

    def make_trunk(self, one, other):
        """Adds the cable between two switches, or one for each VLAN id that both its ports are in."""
        (first, at), (second, port) = one, other
        both = [vlan for vlan in self.vlans.get(one, ()) if vlan in self.vlans.get(other, ())]
        for vlan in [None] if self.can.filtering else both:
            end = "" if vlan is None else f".{vlan}"
            self.add_cable(first, f"p{at}{end}{self.bridge(one, vlan)}", second, f"p{port}{end}")
            self.add(2, "ip", second, f"link set dev p{port}{end}{self.bridge(other, vlan)} up")
        self.join(one, f"p{at}")
        self.join(other, f"p{port}")

    def is_there(self, end):
        """Whether an end has an interface of its own: not where the row that it wants is missing, and others stand at its port."""
        vlans = self.vlans.get(self.cables.ports[end.machine, end.interface], ())
        return end.vlan in vlans or not vlans

    def make_joint(self, joint, bridge):
        """Adds the bridge of pipes on a machine, and what its one pipe does to frames."""
        self.add(4, "ip", joint.machine, f"link add name {bridge} up {BRIDGE}")
        for end in joint.ends:
            self.add(4, "ip", joint.machine, f"link set dev {self.interface(end)} master {bridge}")
        if joint.pipe:
            first, second = (self.interface(end) for end in joint.ends)
            self.shape(joint.machine, second, joint.pipe.there)
            self.shape(joint.machine, first, joint.pipe.back)

    def shape(self, machine, interface, rates):
        """Adds what happens to frames that leave a pipe by an interface."""
        # (frames are flooded, since nothing is learned: so a port that floods none loses all)
        flood = " flood off mcast_flood off bcast_flood off" if rates.loss >= ALL else ""
        self.add(5, "bridge", machine, f"link set dev {interface} learning off{flood}")
        words = [f"delay {rates.delay}us"] if rates.delay else []
        words += [f"loss {rates.loss / 10_000:.4f}%"] if 0 < rates.loss < ALL else []
        words += [f"rate {rates.kbps}kbit"] if rates.kbps else []
        if self.can.netem and words:
            self.add(6, "tc", machine, f"qdisc add dev {interface} root netem limit 10000 {' '.join(words)}")

    def places(self):
        """Gives each end that has an interface, with its namespace and that interface's name."""
        return {end: (self.space(end.machine), self.interface(end)) for end in self.world.ends() if self.is_there(end)}

    def loose(self):
        """Gives the interfaces of machines with ends that are in no VLAN, as ends without an id: no frame may come there."""
        held = {(end.machine, end.interface) for end in self.world.ends()}
        ends = [End(machine, it, 0) for machine in sorted(self.used) for it in self.cables.machines[machine] if (machine, it) not in held]
        return {end: (self.space(end.machine), self.interface(end)) for end in ends}
