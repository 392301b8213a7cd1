"""The other end of `lab serve`: what takes the place of a run of labctl where a server has the folder."""
import contextlib
import json
import signal

from . import peers
from .codes import IN_USE, Wrong
from .replies import Replies


def found(path):
    """Gives the server of a folder, where one listens."""
    connection = peers.connect(path)
    if connection is None:
        return None
    connection.close()
    return Served(path)


class Served:
    """A folder that a server has."""

    def __init__(self, path):
        self.path = path

    def connect(self):
        """Gives a connection to the server."""
        connection = peers.connect(self.path)
        if connection is None:
            raise Wrong(IN_USE, f"the server of {self.path} has ended; try again")
        # (a server that ends is told, and doesn't end this process by a signal)
        signal.signal(signal.SIGPIPE, signal.SIG_IGN)
        return connection

    @contextlib.contextmanager
    def still(self):
        """Keeps the server still, while the folder is copied."""
        with self.connect() as connection, connection.makefile("rwb") as it:
            it.write(b'{"still": true}\n')
            it.flush()
            if not json.loads(it.readline() or b"{}").get("still"):
                raise Wrong(IN_USE, f"the server of {self.path} doesn't stand still; try again")
            yield


class ServedRun(Replies):
    """A script that a server does, with the face of a `Run`."""

    def __init__(self, server, quiet, kept_back, cost, words):
        super().__init__(quiet, kept_back)
        self.server, self.cost, self.words = server, cost, words

    def of(self, script, progress=None):
        """Lets the server do a script, and gives the exit status."""
        with self.server.connect() as connection, connection.makefile("rwb") as it:
            try:
                it.write(json.dumps({"length": len(script), "cost": self.cost, "words": self.words}).encode() + b"\n" + script)
                it.flush()
                for told in map(json.loads, it):
                    if self.take(told, progress):
                        return told["status"]
            except (BrokenPipeError, ConnectionResetError):
                pass
        raise Wrong(IN_USE, f"the server of {self.server.path} ended before its reply: the next command settles what moves; see lab status")

    def take(self, told, progress):
        """Takes a line of the server, and tells whether it is the last one."""
        if "wrong" in told:
            raise Wrong(told["status"], told["wrong"])
        if "turn" in told and progress:
            progress(told["turn"], told["trouble"])
        if "line" in told:
            self.see(told["line"])
        return "status" in told

    def over(self, source):
        return self.of((source.buffer if hasattr(source, "buffer") else source).read())

    def turned(self, command, exp, progress):
        return self.of(command.script(), progress)
