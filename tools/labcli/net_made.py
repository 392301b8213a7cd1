"""A plan done by iproute2: namespaces whose names begin with a prefix of the lab's folder, found by it and taken down by it."""
import hashlib
import os
import shutil
import socket
import subprocess
import time

from .codes import IN_USE, REFUSED, Wrong
from .net_plan import Batch, Can

# Where iproute2 keeps the names of namespaces.
NAMES = "/var/run/netns"
# The seconds that one run of a tool may take, and those in which another run over the folder may end.
LIMIT, PATIENCE = 600, 3
PACKAGES = {"ip": "iproute2", "bridge": "iproute2", "tc": "iproute2", "nsenter": "util-linux", "unshare": "util-linux", "mount": "mount"}


def prefix_of(path):
    """Gives what the names of all that is made for a folder begin with."""
    return "lab" + hashlib.sha256(os.path.realpath(path).encode(errors="surrogateescape")).hexdigest()[:12]


def tool(name):
    """Gives the path of a tool, also where folders of the administrator aren't on the path."""
    found = shutil.which(name, path=os.pathsep.join([*os.get_exec_path(), "/usr/sbin", "/sbin"]))
    if not found:
        raise Wrong(REFUSED, f"there is no program {name}; install Debian's package {PACKAGES[name]}")
    return found


def tools():
    """Refuses where a tool is missing that `up` needs."""
    for name in ("ip", "bridge", "tc"):
        tool(name)


def done(name, words, lines=None):
    """Runs a tool, over lines of a batch where they are given. Gives what it says of a fault, or nothing."""
    given = None if lines is None else "".join(f"{line}\n" for line in lines)
    try:
        ran = subprocess.run([tool(name), *words], input=given, stdin=None if given is not None else subprocess.DEVNULL, text=True,
                             errors="replace", stdout=subprocess.DEVNULL, stderr=subprocess.PIPE, timeout=LIMIT, env={**os.environ, "LC_ALL": "C"},
                             close_fds=False)
    except subprocess.TimeoutExpired:
        return f"no end after {LIMIT} s"
    return None if ran.returncode == 0 else " ".join(ran.stderr.split()) or f"it ended with {ran.returncode}"


def standing(prefix):
    """Gives the names of the namespaces of a prefix."""
    try:
        return sorted(name for name in os.listdir(NAMES) if name.startswith((f"{prefix}-", f"{prefix}+")))
    except FileNotFoundError:
        return []


def take_down(prefix):
    """Takes down all of a prefix, and tells how many namespaces that were. Interfaces and bridges go with their namespaces."""
    names = standing(prefix)
    if names:
        fault = done("ip", ["-force", "-batch", "-"], [f"netns delete {name}" for name in names])
        if left := standing(prefix):
            raise Wrong(REFUSED, f"{len(left)} namespaces of {prefix} can't be taken down: {fault}")
    return len(names)


class Alone:
    """Keeps other runs off the network of a prefix, as long as this stands. Nothing is left of it behind a kill.

    Tools inherit it: where a run is killed, its last tool keeps the others off until it ends.
    """

    def __init__(self, prefix):
        self.socket = socket.socket(socket.AF_UNIX, socket.SOCK_STREAM)
        self.socket.set_inheritable(True)
        until = time.monotonic() + PATIENCE
        while not self.is_taken(prefix):
            if time.monotonic() > until:
                raise Wrong(IN_USE, "another lab net is at work over this folder; wait for its end")
            time.sleep(0.05)

    def is_taken(self, prefix):
        """Tries to take the prefix, which one run at a time can have."""
        try:
            self.socket.bind(f"\0{prefix}.lock")
            return True
        except OSError:
            return False


def probe(prefix):
    """Tries in a namespace what the kernel can; refuses where it can't do what is always needed."""
    name = f"{prefix}+probe"
    if name in standing(prefix):
        done("ip", ["netns", "delete", name])
    if fault := done("ip", ["netns", "add", name]):
        raise Wrong(REFUSED, f"no namespace can be made: {fault}")
    try:
        for what, line in (("virtual cables", "link add name p0 type veth peer name p1"), ("bridges", "link add name b0 type bridge")):
            if fault := done("ip", ["-n", name, "-batch", "-"], [line]):
                raise Wrong(REFUSED, f"this kernel has no {what}: {fault}")
        lines = ["link add name b1 type bridge vlan_filtering 1 vlan_default_pvid 0", "link add link p0 name p0.2 type vlan id 2"]
        filtering = not done("ip", ["-n", name, "-batch", "-"], lines)
        netem = not done("tc", ["-n", name, "qdisc", "add", "dev", "p0", "root", "netem", "delay", "1ms"])
        return Can(filtering, netem)
    finally:
        done("ip", ["netns", "delete", name])


def make(plan, mark):
    """Does a plan, and makes a namespace by the name of the mark last; takes all down again where a part of it fails."""
    try:
        for batch in [*plan.batches(), Batch("ip", None, [f"netns add {mark}"])]:
            space = [] if batch.device is None else ["-n", plan.space(batch.device)]
            if fault := done(batch.tool, [*space, "-batch", "-"], batch.lines):
                raise Wrong(REFUSED, f"{batch.tool} failed for {batch.device or 'namespaces'}: {fault}; all is taken down again")
    except BaseException:
        take_down(plan.prefix)
        raise
