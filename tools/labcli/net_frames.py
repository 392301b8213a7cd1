"""Broadcast frames from the ends of the network, with who saw them."""
import os
import socket
import struct
import time

from .codes import REFUSED, Wrong
from .net_sockets import Sockets

# The kind of an Ethernet frame that is for experiments, and that of all kinds.
KIND, EVERY = 0x88B5, 0x0003
# So many frames are sent before the network is read.
AT_ONCE = 32
# So often is sent what wasn't seen yet, with so many seconds between, and for so many in all: a bridge's port may need one until it forwards.
TRIES, PAUSE, LIMIT = 12, 0.25, 10
# The seconds in which a frame that nobody waits for may still come.
REST = 0.3


class Frames:
    """Broadcast frames, one from each sender, and which ends saw them."""

    def __init__(self, places, senders, joined):
        self.end_at = {place: end for end, place in places.items()}
        self.places, self.senders, self.joined = places, senders, joined
        self.mark = os.urandom(8)
        self.seen = {end: set() for end in senders}
        self.missing = {}

    def socket(self, space):
        """Makes a socket that sees all frames of the namespace in which this thread is."""
        made = socket.socket(socket.AF_PACKET, socket.SOCK_RAW, socket.htons(EVERY))
        made.setsockopt(socket.SOL_SOCKET, socket.SO_RCVBUF, 1 << 20)
        made.setblocking(False)
        return made

    def frame(self, number):
        """Gives the frame of the sender of that number."""
        source = b"\x02\0" + number.to_bytes(4, "big")
        return b"\xff" * 6 + source + struct.pack(">H8sI", KIND, self.mark, number) + bytes(32)

    def __call__(self, space, data, at):
        """Takes what a socket saw."""
        interface, _, way = at[:3]
        if data[12:22] != struct.pack(">H8s", KIND, self.mark) or len(data) < 26:
            return
        end = self.end_at.get((space, interface))
        sender = self.senders[int.from_bytes(data[22:26], "big")]
        # (what leaves a machine is its own frame, unless pipes join the interface with another)
        if end and end != sender and (way != socket.PACKET_OUTGOING or end in self.joined):
            self.seen[sender].add(end)
            if sender in self.missing:
                self.missing[sender].discard(end)
                if not self.missing[sender]:
                    del self.missing[sender]

    def run(self, surely, slowest):
        """Sends the frames until each reached the ends that it surely reaches, or often enough."""
        self.missing = {end: set(surely[end]) for end in self.senders if surely[end]}
        numbers = {end: number for number, end in enumerate(self.senders)}
        until = time.monotonic() + LIMIT + 3 * slowest
        with Sockets([space for space, _ in self.places.values()], self.socket) as sockets:
            for attempt in range(TRIES):
                again = [end for end in self.senders if attempt == 0 or end in self.missing]
                for at, end in enumerate(again):
                    self.send(sockets, end, numbers[end])
                    if at % AT_ONCE == AT_ONCE - 1:
                        sockets.read(0, self)
                sockets.read(PAUSE + slowest, self, lambda: not self.missing)
                if not self.missing or time.monotonic() > until:
                    break
            sockets.read(REST + slowest, self)
        return self.seen

    def send(self, sockets, end, number):
        """Sends the frame of an end."""
        space, interface = self.places[end]
        try:
            sockets.by_space[space].sendto(self.frame(number), (interface, KIND))
        except OSError as fault:
            raise Wrong(REFUSED, f"no frame can be sent from {end}: {fault.strerror}; lab net up makes the network anew") from None
