"""Sockets within namespaces, which one process reads together."""
import ctypes
import os
import resource
import select
import time

from .codes import REFUSED, Wrong
from .net_made import NAMES


def enter(space):
    """Takes this thread into a namespace: an open one, or one of that name."""
    number = space if isinstance(space, int) else os.open(f"{NAMES}/{space}", os.O_RDONLY | os.O_CLOEXEC)
    try:
        if hasattr(os, "setns"):
            os.setns(number, 0)
        elif ctypes.CDLL(None, use_errno=True).setns(number, 0):
            raise OSError(ctypes.get_errno(), os.strerror(ctypes.get_errno()))
    finally:
        if number is not space:
            os.close(number)


def each_inside(spaces, do):
    """Does for each namespace what makes a socket in it, and gives the sockets by their namespaces."""
    soft, hard = resource.getrlimit(resource.RLIMIT_NOFILE)
    if len(spaces) + 64 > soft:
        if len(spaces) + 64 > hard:
            raise Wrong(REFUSED, f"{len(spaces)} sockets are wanted, and this process may have {hard} files; raise that by ulimit -n")
        resource.setrlimit(resource.RLIMIT_NOFILE, (len(spaces) + 64, hard))
    home, made = os.open("/proc/self/ns/net", os.O_RDONLY | os.O_CLOEXEC), {}
    try:
        for space in spaces:
            enter(space)
            made[space] = do(space)
    except OSError as fault:
        raise Wrong(REFUSED, f"no socket can be had in {space}: {fault.strerror}") from None
    finally:
        enter(home)
        os.close(home)
    return made


class Sockets:
    """A socket in each namespace, all of which are read at once."""

    def __init__(self, spaces, do):
        self.by_space = each_inside(sorted(set(spaces)), do)
        self.space_of = {it.fileno(): space for space, it in self.by_space.items()}
        self.waiting = select.epoll()
        for number in self.space_of:
            self.waiting.register(number, select.EPOLLIN)

    def __enter__(self):
        return self

    def __exit__(self, *_):
        self.waiting.close()
        for it in self.by_space.values():
            it.close()

    def read(self, seconds, take, is_enough=lambda: False):
        """Reads what comes within the seconds, or until it is enough."""
        until = time.monotonic() + seconds
        while not is_enough():
            for number, _ in self.waiting.poll(max(0, until - time.monotonic())):
                self.read_one(number, take)
            # (also where frames go round, and so never end)
            if time.monotonic() >= until:
                return

    def read_one(self, number, take):
        """Reads what one socket has."""
        space = self.space_of[number]
        for _ in range(256):
            try:
                data, at = self.by_space[space].recvfrom(256)
            except BlockingIOError:
                return
            take(space, data, at)
