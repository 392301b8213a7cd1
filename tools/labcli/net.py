"""The word `net`: what the devices of a lab hold as a network of namespaces on this machine, with frames to be seen in it."""
import hashlib
import os
import sys
import time

from .codes import DONE, REFUSED, STUCK, USAGE, Wrong
from .net_lab import world_of
from .net_made import Alone, make, prefix_of, probe, standing, take_down, tool, tools
from .net_plan import Plan
from .words import usage


def add(words):
    """Adds the parser."""
    parser = words.add("net", example="lab net up; lab net test; lab net sh pc1 -- ping -c 1 10.1.1.2; lab net down")
    parser.add_argument("what", metavar="up|test|sh|down", choices=("up", "test", "sh", "down"))
    parser.add_argument("machine", metavar="MACHINE", nargs="?", type=words.name, completes="machine")
    parser.add_argument("command", metavar="COMMAND", nargs="*", help="with sh: done in place of a shell; -- stands before it")
    parser.add_argument("--frames", action="store_true", help="with test: tells of each frame who saw it")


def run(args, lab):
    """Makes, tests, enters or takes down the network of the lab's folder."""
    if (args.what == "sh") != bool(args.machine) or args.frames and args.what != "test":
        raise Wrong(USAGE, usage("net"))
    if os.geteuid() != 0:
        from .net_user import run_as_user
        return run_as_user(args, lab)
    prefix = prefix_of(lab.path)
    if args.what == "sh":
        return enter(prefix, args.machine, args.command)
    tools()
    # (it stands until this process ends)
    lab.alone = Alone(prefix)
    if args.what == "down":
        print(f"down {take_down(prefix)} namespaces")
        return DONE
    network = Network(prefix, lab)
    return network.up() if args.what == "up" else network.test(args.frames)


def enter(prefix, machine, command):
    """Becomes a shell in a machine, or another program."""
    if not standing(prefix):
        raise Wrong(REFUSED, "no network stands; make it by lab net up")
    space = f"{prefix}-{machine}"
    if space not in standing(prefix):
        raise Wrong(REFUSED, f"no machine {machine} stands; see lab map")
    words = command or [os.environ.get("SHELL") or "/bin/sh"]
    sys.stdout.flush()
    os.execve(tool("ip"), ["ip", "netns", "exec", space, *words], {**os.environ, "LAB_MACHINE": machine})


class Network:
    """The network of a lab as it is now: its plan, and whether it stands."""

    def __init__(self, prefix, lab):
        self.prefix, self.world = prefix, world_of(lab)
        self.can = probe(prefix)
        self.plan = Plan(prefix, self.world, self.can)
        # (a last namespace, whose name tells of what was made, stands where all was made)
        told = repr([(it.tool, it.device, it.lines) for it in self.plan.batches()])
        self.mark = f"{prefix}+{hashlib.sha256(told.encode()).hexdigest()[:16]}"

    def make(self):
        """Makes the network anew, and tells of it."""
        began = time.monotonic()
        take_down(self.prefix)
        make(self.plan, self.mark)
        lab = self.world.cables
        told = f"up {len(lab.machines)} machines, {len(lab.switches)} switches, {len(lab.ports) + len(lab.trunks)} cables"
        print(f"{told}, {time.monotonic() - began:.1f} s", flush=True)
        self.remark()

    def remark(self):
        """Tells on standard error what isn't as on real devices."""
        rates = [it for pipe in self.world.held.pipes for it in (pipe.there, pipe.back)]
        notes = [*self.plan.notes]
        if not self.can.filtering:
            notes.append("the bridges of this kernel don't filter VLANs: a switch is a bridge for each VLAN id")
        if rates and not self.can.netem:
            notes.append("this kernel has no netem: pipes have no rate and no delay, and lose all or nothing")
        for note in notes:
            print(f"  {note}", file=sys.stderr)

    def up(self):
        """Makes the network."""
        self.make()
        return DONE

    def test(self, is_each_told):
        """Tests the network; makes it first where another one stands, and for the test alone where none does."""
        from .net_judge import Judge
        stood = standing(self.prefix)
        try:
            if self.mark not in stood:
                self.make()
            told = Judge(self.world, self.plan).run()
        finally:
            if not stood:
                take_down(self.prefix)
        for line in [*(told.frames if is_each_told else []), *told.differences, *told.numbers]:
            print(line)
        return STUCK if told.differences else DONE
