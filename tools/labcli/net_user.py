"""The network of a user who isn't root: in a user namespace, which a process keeps as long as the network stands."""
import os
import socket
import struct
import subprocess
import sys

from .codes import DONE, IN_USE, REFUSED, Wrong
from .net_keeper import COVERED
from .net_made import prefix_of, tool
from .programs import HERE, LAUNCHER

# The seconds that the keeper has to answer.
LIMIT = 10


class Keeper:
    """The process that keeps a user's namespaces. It listens on a socket whose name has the lab's prefix, and so it is found."""

    def __init__(self, prefix):
        self.name = f"\0{prefix}.{os.getuid()}.keeper"
        self.started = None

    def connect(self):
        """Gives a connection to the keeper, if there is one, and its process."""
        it = socket.socket(socket.AF_UNIX, socket.SOCK_STREAM)
        it.settimeout(LIMIT)
        try:
            it.connect(self.name)
        except OSError:
            it.close()
            return None, None
        process, user, _ = struct.unpack("3i", it.getsockopt(socket.SOL_SOCKET, socket.SO_PEERCRED, 12))
        if user != os.getuid():
            it.close()
            raise Wrong(REFUSED, f"process {process} of another user has the name of this network")
        return it, process

    def process(self):
        """Gives the number of the keeper's process, if there is one."""
        it, process = self.connect()
        if it:
            it.close()
        return process

    def end(self):
        """Ends the keeper, and waits for that. Gives whether there was one."""
        it, process = self.connect()
        if it is None:
            return False
        with it:
            try:
                it.sendall(b"-")
                it.recv(1)
            except (BrokenPipeError, ConnectionResetError):
                # (it ends already)
                pass
            except OSError:
                raise Wrong(REFUSED, f"process {process}, which keeps the network, doesn't answer") from None
        return True

    def start(self):
        """Starts the keeper. It ends with this process, until it is told to stay."""
        with socket.socket(socket.AF_UNIX, socket.SOCK_STREAM) as listening:
            try:
                listening.bind(self.name)
            except OSError:
                raise Wrong(IN_USE, "another lab net is at work over this folder; wait for its end") from None
            words = [tool("unshare"), "--user", "--map-root-user", "--mount", "--net", "--", sys.executable, "-I", f"{HERE}/net_keeper.py"]
            self.started = subprocess.Popen([*words, str(listening.fileno()), tool("mount")], pass_fds=[listening.fileno()], cwd="/",
                                            stdin=subprocess.PIPE, stdout=subprocess.PIPE, stderr=subprocess.PIPE, start_new_session=True)
        if self.started.stdout.read(1) != b"+":
            told = self.started.stderr.read().decode(errors="replace").strip().splitlines()[-1:]
            raise Wrong(REFUSED, f"no user namespace can be had, so be root: {''.join(told)}")

    def stay(self):
        """Tells the keeper to stay behind the end of this process."""
        self.started.stdin.write(b"+")
        self.started.stdin.flush()

    def run(self, words):
        """Runs a program within the namespaces that are kept."""
        entered = ["--target", str(self.process()), "--user", "--mount", "--net", "--preserve-credentials", "--", *words]
        return subprocess.run([tool("nsenter"), *entered]).returncode


def run_as_user(args, lab):
    """Does what the word `net` asks for within the kept namespaces, where this user is root."""
    path = os.path.realpath(lab.path)
    if f"{path}/".startswith(f"{COVERED}/"):
        raise Wrong(REFUSED, f"a lab below {COVERED} has a network for root alone; copy it elsewhere, or be root")
    keeper = Keeper(prefix_of(path))
    if args.what == "down":
        print("down" if keeper.end() else "down 0 namespaces")
        return DONE
    stood = keeper.process() is not None
    if not stood and args.what == "sh":
        raise Wrong(REFUSED, "no network stands; make it by lab net up")
    if not stood:
        keeper.start()
    words = [args.machine, "--", *args.command] if args.what == "sh" else ["--frames"] if args.frames else []
    options = ["-d", path, *(["-w", f"{lab.wait:g}"] if lab.wait else [])]
    status = keeper.run([sys.executable, os.path.join(LAUNCHER, "lab"), "net", *options, args.what, *words])
    if not stood and args.what == "up" and status == DONE:
        keeper.stay()
    return status
