"""Echo requests between the ends of each link or LAN, which the kernels of both answer."""
import fcntl
import os
import socket
import struct

from .net_sockets import Sockets

REQUEST, REPLY = 8, 0
# So many requests are out at once; each is sent so often, with so many seconds between.
AT_ONCE, TRIES, PAUSE = 64, 4, 0.5
# In a LAN of more ends each one asks the next one alone.
EACH_PAIR = 64
IP_PKTINFO = getattr(socket, "IP_PKTINFO", 8)
# The call by which a neighbour is forgotten.
SIOCDARP = 0x8953


def pairs(wanted, surely):
    """Gives the pairs of ends with addresses on each link or LAN, between which no frame may be lost, and whose answers have one way."""
    subnets = {}
    for end, address in wanted.addresses.items():
        subnets.setdefault((end.machine, address.rpartition(".")[0]), []).append(end)
    of_owner = {}
    for end, address in sorted(wanted.addresses.items()):
        if len(subnets[end.machine, address.rpartition(".")[0]]) == 1:
            of_owner.setdefault(wanted.owners[end], []).append(end)
    for ends in of_owner.values():
        some = zip(ends, ends[1:] + ends[:1]) if len(ends) > EACH_PAIR else ((a, b) for at, a in enumerate(ends) for b in ends[at + 1:])
        yield from ((one, other) for one, other in some if other in surely.ends(one) and one in surely.ends(other))


def checksum(data):
    """Gives the checksum of an even number of bytes."""
    total = sum(struct.unpack(f">{len(data) // 2}H", data))
    while total >> 16:
        total = (total & 0xFFFF) + (total >> 16)
    return ~total & 0xFFFF


class Pings:
    """One echo request for each pair, from the first to the second."""

    def __init__(self, places, addresses, asked):
        self.places, self.addresses, self.asked = places, addresses, asked
        self.mark, self.indices, self.open = os.urandom(8), {}, set()

    def socket(self, space):
        """Makes a socket for echoes in the namespace in which this thread is."""
        made = socket.socket(socket.AF_INET, socket.SOCK_RAW, socket.IPPROTO_ICMP)
        made.setblocking(False)
        self.indices.update({(space, name): index for index, name in socket.if_nameindex()})
        return made

    def __call__(self, space, data, at):
        """Takes what a socket got: an IP header and what it carries."""
        body = data[(data[0] & 15) * 4:]
        if len(body) >= 20 and body[0] == REPLY and body[8:16] == self.mark:
            number = int.from_bytes(body[16:20], "big")
            one, other = self.asked[number]
            if self.places[one][0] == space and at[0] == self.addresses[other]:
                self.open.discard(number)

    def send(self, sockets, number):
        """Sends the request of a pair by the interface of its first end."""
        one, other = self.asked[number]
        if self.places[one] not in self.indices:
            return
        body = struct.pack(">HH8sI", os.getpid() & 0xFFFF, number & 0xFFFF, self.mark, number)
        packet = struct.pack(">BBH", REQUEST, 0, checksum(struct.pack(">BBH", REQUEST, 0, 0) + body)) + body
        way = struct.pack("@i4s4s", self.indices[self.places[one]], socket.inet_aton(self.addresses[one]), bytes(4))
        try:
            sockets.by_space[self.places[one][0]].sendmsg([packet], [(socket.IPPROTO_IP, IP_PKTINFO, way)], 0, (self.addresses[other], 0))
        except OSError:
            # (it stays open, and counts as not answered)
            pass

    def forget(self, sockets, number):
        """Lets both machines of a pair forget each other's hardware address: a kernel has room for 1,024 in all its namespaces together."""
        for end, other in (self.asked[number], self.asked[number][::-1]):
            space, interface = self.places[end]
            address = struct.pack("=HH4s8x", socket.AF_INET, 0, socket.inet_aton(self.addresses[other]))
            try:
                fcntl.ioctl(sockets.by_space[space], SIOCDARP, address + bytes(36) + interface.encode().ljust(16, b"\0"))
            except OSError:
                # (it knew none)
                pass

    def ask(self, sockets, numbers, slowest):
        """Sends some requests, often enough, and gives those that weren't answered."""
        self.open = set(numbers)
        for _ in range(TRIES):
            for number in sorted(self.open):
                self.send(sockets, number)
            sockets.read(PAUSE + 2 * slowest, self, lambda: not self.open)
        for number in numbers:
            self.forget(sockets, number)
        return self.open

    def run(self, slowest):
        """Sends all requests, some at once, and gives the pairs of which none was answered."""
        numbers = [number for number, pair in enumerate(self.asked) if all(end in self.places for end in pair)]
        silent = set(range(len(self.asked))) - set(numbers)
        with Sockets([self.places[end][0] for it in numbers for end in self.asked[it]], self.socket) as sockets:
            for at in range(0, len(numbers), AT_ONCE):
                silent |= self.ask(sockets, numbers[at:at + AT_ONCE], slowest)
        return [self.asked[it] for it in sorted(silent)]
