"""Keeps a user's namespaces as long as a network stands in them: a program of its own, which `net_user.py` starts within them.

Its words are a socket that listens, and the program mount. On standard input it is told to stay by a `+`; where that ends without one,
so does it. Whoever of its user connects and writes a `-` ends it. With it go the namespaces, and all that is in them.
"""
import os
import select
import socket
import struct
import subprocess
import sys

# This folder is covered by an empty one, where the names of namespaces are kept.
COVERED = "/run"
# The seconds that a connection has to write its word.
LIMIT = 2


def cover(mount):
    """Covers the folder for this process and those behind it."""
    words = [mount, "-t", "tmpfs", "-o", "mode=755", "none", COVERED]
    subprocess.run(words, stdin=subprocess.DEVNULL, stdout=subprocess.DEVNULL, check=True)
    os.mkdir(f"{COVERED}/netns")


def is_end(it):
    """Whether a connection is one of this user that ends all."""
    it.settimeout(LIMIT)
    _, user, _ = struct.unpack("3i", it.getsockopt(socket.SOL_SOCKET, socket.SO_PEERCRED, 12))
    try:
        return user == os.getuid() and it.recv(1) == b"-"
    except OSError:
        return False


def keep(listening):
    """Waits for the end of standard input, or for a connection that ends all."""
    waiting = select.poll()
    waiting.register(0, select.POLLIN)
    waiting.register(listening, select.POLLIN)
    while True:
        ready = [number for number, _ in waiting.poll()]
        if 0 in ready:
            if os.read(0, 1) != b"+":
                return
            waiting.unregister(0)
        if listening.fileno() in ready:
            it, _ = listening.accept()
            if is_end(it):
                # (whoever waits sees the connection's end, which the kernel makes last)
                os._exit(0)
            it.close()


def main():
    """Begins, and tells that by a `+`."""
    cover(sys.argv[2])
    listening = socket.socket(fileno=int(sys.argv[1]))
    # (a connection tells of the process that listens, so it is this one)
    listening.listen(8)
    os.write(1, b"+")
    for stream in (1, 2):
        os.dup2(os.open(os.devnull, os.O_WRONLY), stream)
    keep(listening)


if __name__ == "__main__":
    main()
