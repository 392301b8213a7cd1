"""A lab over the folder that the command line names, as the words of lab see it."""
import os
import sys

from .codes import UNKNOWN, Wrong
from .folder import Folder, tables
from .running import Run


class Lab:
    """A lab in a folder, with the options of the command line."""

    def __init__(self, path, dry=False, turns=False, in_memory=False, wait=0, cost=None, json=False):
        self.path = path
        self.dry, self.turns, self.in_memory, self.wait, self.cost, self.json = dry, turns, in_memory, wait, cost, json
        self.folder = None
        self.server = None
        # (the words that a server notes, and the replies so far)
        self.given = None
        self.replies = []

    def served(self):
        """Gives the server of the folder, where one stands."""
        if self.server is None and self.folder is None and os.path.exists(f"{self.path}/socket"):
            from .client import found
            self.server = found(self.path)
        return self.server

    def hold(self, new=False):
        """Locks the folder as long as the process runs, and gives it; new: it may be made. Where a server has it, that keeps others off."""
        if self.folder is None and not self.served():
            self.folder = Folder(self.path, new, self.wait)
        return self.folder

    def copy(self):
        """Gives a context with another lab over a copy of the folder, which is gone behind it."""
        from .copied import copied
        return copied(self)

    def run(self, quiet=False, new=False, kept_back=()):
        """Gives a run of labctl that has not begun, or what takes its place where a server has the folder."""
        folder = self.hold(new)
        if folder is None:
            from .client import ServedRun
            return ServedRun(self.server, quiet or self.json, kept_back, self.cost, None if quiet else self.given)
        return Run(folder.path, folder.lock, quiet or self.json, self.cost, kept_back)

    def ask(self, script):
        """Gives the lines of the replies to a script, which aren't told."""
        run = self.run(quiet=True)
        status = run.of(script if isinstance(script, bytes) else script.encode())
        if status and not run.replies:
            raise Wrong(status, f"labctl ended with {status}; see 'How a run ends' in the manual")
        return run.replies

    def tell(self, lines):
        """Tells replies."""
        self.replies += lines
        if not self.json:
            print("\n".join(lines), flush=True)

    def taken(self, run, command):
        """Lets a run do a command, turn by turn where that is asked for, and gives its status."""
        exp = command.swapped()
        if self.turns and exp:
            from .turns import Turns
            with Turns(self, command, exp) as turns:
                status = run.turned(command, exp, turns.tell)
        else:
            status = run.of(command.script())
        self.replies += run.told()
        return status

    def do(self, command, new=False):
        """Does a command, tells its replies and advice, and gives its status."""
        if command.searches():
            from .searching import search
            return search(self, command)
        run = self.run(new=new)
        status = self.taken(run, command)
        if status:
            self.advise(command, run.replies)
        return status

    def advise(self, command, replies):
        """Tells what is wrong with a text."""
        from .advice import explain
        explain(command, replies)

    def look(self, *words):
        """Runs labview over the folder, which locks and changes nothing: its status, and the lines that it tells."""
        import subprocess
        from .programs import labview
        ran = subprocess.run([labview(), *words, os.path.join(".", self.path)], stdout=subprocess.PIPE)
        return ran.returncode, ran.stdout.decode(errors="replace").splitlines()

    def status(self):
        """Gives the lines of `status`."""
        lines = self.ask("status\n")
        if lines and lines[0].partition(" ")[0] not in ("exp", "free"):
            raise Wrong(UNKNOWN, lines[0])
        return lines

    def free_ids(self):
        """Gives how many VLAN ids no experiment claims."""
        return next((int(line.split(" ")[2]) for line in self.status() if line.startswith("free ")), 0)

    def off(self):
        """Gives the names of the machines that are out of service."""
        if not os.path.exists(f"{self.path}/off"):
            return set()
        from .service import listed
        return set(listed(self.path))

    def shown(self, *names):
        """Gives each named experiment, or all in the order of their creation."""
        from .shown import shown_of
        names = names or [line.split(" ")[1] for line in self.status() if line.startswith("exp ")]
        return shown_of(self.ask("".join(f"show {name}\n" for name in names))) if names else []

    def text(self):
        """Gives the lines of the lab's own text."""
        from .shown import journal_text
        return journal_text(self.path)

    def tables(self):
        """Gives the lines that the devices hold."""
        return tables(self.path)
