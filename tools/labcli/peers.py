"""Sockets in a folder: where they are made and found, and who is at their other end."""
import contextlib
import os
import socket
import stat
import struct

from .codes import FOLDER, IN_USE, Wrong

NAME = "socket"


@contextlib.contextmanager
def within(path):
    """Goes into a folder for a while, since the name of a socket may have but some 100 bytes."""
    before = os.open(".", os.O_RDONLY | os.O_DIRECTORY)
    try:
        os.chdir(path)
        yield
    finally:
        os.fchdir(before)
        os.close(before)


def listen(server, path, is_groups):
    """Binds a socket in a folder whose lock is held: one that stands is a dead server's. It is its owner's, or the folder's group's too."""
    with within(path):
        if os.path.lexists(NAME):
            if not stat.S_ISSOCK(os.lstat(NAME).st_mode):
                raise Wrong(FOLDER, f"{path}/{NAME} is no socket; take it away")
            os.unlink(NAME)
        before = os.umask(0o177)
        try:
            server.bind(NAME)
        finally:
            os.umask(before)
        if is_groups:
            os.chown(NAME, -1, os.stat(".").st_gid)
            os.chmod(NAME, 0o660)


def peer(connection):
    """Gives the user and the group at the other end, where the platform tells them."""
    if hasattr(socket, "SO_PEERCRED"):
        told = connection.getsockopt(socket.SOL_SOCKET, socket.SO_PEERCRED, struct.calcsize("3i"))
        return struct.unpack("3i", told)[1:]
    return None


def has_leave(found, path, is_groups):
    """Whether a user may be served in a folder: its owner, who serves, root, or one of its group where that is allowed."""
    if found is None:
        return True
    uid, gid = found
    about = os.stat(path)
    if uid in (0, os.getuid(), about.st_uid):
        return True
    if not is_groups:
        return False
    import pwd
    try:
        name = pwd.getpwuid(uid).pw_name
        return about.st_gid in os.getgrouplist(name, gid)
    except KeyError:
        return about.st_gid == gid


def connect(path):
    """Gives a connection to the server of a folder, or nothing where none listens. A socket of another than the folder's owner isn't trusted."""
    it = socket.socket(socket.AF_UNIX, socket.SOCK_STREAM)
    try:
        with within(path):
            about, above = os.lstat(NAME), os.stat(".")
            if not stat.S_ISSOCK(about.st_mode):
                raise FileNotFoundError
            it.connect(NAME)
        owners = {0, os.getuid(), above.st_uid}
        found = peer(it)
        if about.st_uid not in owners or found and found[0] not in owners:
            raise Wrong(IN_USE, f"{path}/{NAME} is of another user than the folder; don't use it")
        return it
    except (FileNotFoundError, ConnectionRefusedError, NotADirectoryError):
        it.close()
        return None
    except PermissionError:
        it.close()
        raise Wrong(IN_USE, f"{path} is served, and you have no leave to its socket; lab serve --group lets the folder's group in") from None
    except BaseException:
        it.close()
        raise
