"""The folder of a lab: a first look at it, its lock, its copy, and what its devices hold."""
import fcntl
import os
import time

from .codes import FOLDER, IN_USE, REFUSED, Wrong

FILES = ("journal.a", "journal.b", "tables", "tables.new", "tables.old")
# The seconds between two tries to lock a folder that is waited for.
PAUSE = 0.05


def look(path, new):
    """A first look at a folder, which changes nothing; new: it may be made."""
    above = os.path.dirname(os.path.abspath(path))
    if not os.path.isdir(above):
        raise Wrong(FOLDER, f"there is no folder {above}, where {path} would be; make it first")
    if os.path.exists(path) and not os.path.isdir(path):
        raise Wrong(FOLDER, f"{path} is no folder; name one by -d")
    if not new and not os.path.exists(f"{path}/journal.a"):
        raise Wrong(REFUSED, f"no lab in {path}; begin with: lab -d {path} set FILE")
    for name in [path if os.path.exists(path) else above] + [f"{path}/{name}" for name in FILES]:
        if os.path.exists(name) and not os.access(name, os.W_OK):
            raise Wrong(FOLDER, f"{name} can't be written; lab view only reads")


def tables(path):
    """Gives the lines that the devices of a folder hold."""
    try:
        with open(f"{path}/tables", encoding="utf-8", errors="replace") as it:
            return set(it.read().splitlines())
    except FileNotFoundError:
        return set()


def copy(path, to, others=()):
    """Copies the files of a lab, and others beside them, into another folder."""
    import shutil
    for name in (*FILES, *others):
        if os.path.exists(f"{path}/{name}"):
            shutil.copyfile(f"{path}/{name}", f"{to}/{name}")


class Folder:
    """The folder of a lab, which is locked as long as this stands. A lock that another holds is waited for, for so many seconds."""

    def __init__(self, path, new=False, wait=0):
        look(path, new)
        if not os.path.isdir(path):
            os.mkdir(path)
        self.path = path
        self.lock = os.open(path, os.O_RDONLY | os.O_DIRECTORY)
        try:
            self.take(wait)
        except BaseException:
            self.release()
            raise

    def take(self, wait):
        """Takes the lock, at once or within the seconds of waiting."""
        until = time.monotonic() + wait
        while True:
            try:
                fcntl.flock(self.lock, fcntl.LOCK_EX | fcntl.LOCK_NB)
                return
            except BlockingIOError:
                left = until - time.monotonic()
            if left <= 0:
                waited = f", still after {wait:g} s" if wait else ""
                raise Wrong(IN_USE, f"another program is at work in {self.path}{waited}; lab -w SECONDS waits, lab view looks meanwhile")
            time.sleep(min(left, PAUSE))

    def release(self):
        """Gives the lock back."""
        if self.lock is not None:
            os.close(self.lock)
            self.lock = None
