"""What frames and echoes tell: beside the definition of reach over rows and pipes, and beside what the experiments want."""
from typing import NamedTuple

from .net_frames import Frames
from .net_pings import Pings, pairs
from .net_reach import Reach, Wishes, perhaps, surely

# So many ends a line names.
NAMED = 8


class Told(NamedTuple):
    """The outcome of a test: lines of numbers, of frames, and of differences."""
    numbers: list
    frames: list
    differences: list


def slowest(plan):
    """Gives the seconds that a frame may be on its way: three times through the slowest pipes, with some others before it."""
    rates = [it for pipe in plan.joints.pipes for it in (pipe.there, pipe.back)] if plan.can.netem else []
    delays = sorted((it.delay for it in rates), reverse=True)[:3]
    return sum(delays) / 1_000_000 + max((4.096 / it.kbps for it in rates if it.kbps), default=0)


class Judge:
    """Tests a network that stands as a plan says."""

    def __init__(self, world, plan):
        self.wanted, self.plan, self.places = world.wanted, plan, plan.places()
        self.joined = {end for joint in plan.joints.made for end in joint.ends}
        # (what leaves a machine by an interface in a pipe's bridge doesn't come to its other one)
        self.senders, self.seen = [end for end in self.places if end not in self.joined], {}
        self.surely, self.perhaps = (Reach(world.cables, world.held.rows, plan.joints.pipes, it) for it in (surely, perhaps))
        self.wish_surely, self.wish_perhaps = (Wishes(world.wanted, it) for it in (surely, perhaps))
        self.ends, self.differences = world.ends(), []

    def of(self, end):
        """Tells an end, with whose it is."""
        return f"{end} of {self.wanted.owner(end) or 'nobody'}"

    def differ(self, word, end, what, ends):
        """Adds a line, where there are ends for it."""
        if ends:
            told = ", ".join(self.of(it) for it in sorted(ends)[:NAMED])
            more = f" and {len(ends) - NAMED} more" if len(ends) > NAMED else ""
            self.differences.append(f"{word} {self.of(end)}: {what} {told}{more}")

    def strangers(self, end, seen):
        """Gives the ends that saw a frame of this one, and are of no link or LAN of its own."""
        owner = self.wanted.owner(end)
        if owner and not owner.link:
            return {it for it in seen if (self.wanted.owner(it) or owner._replace(exp=None)).exp != owner.exp}
        return seen - self.wish_perhaps.ends(end) if owner else seen

    def look_at(self, end, seen):
        """Adds the differences of one sender."""
        self.differ("other", end, "by the definition of reach its frame doesn't come to", seen - self.perhaps.ends(end))
        self.differ("other", end, "by the definition of reach its frame comes to", self.surely.ends(end) - seen)
        self.differ("strange", end, "its frame came to", self.strangers(end, seen))
        if end in self.wanted.owners:
            self.differ("lacks", end, "its frame didn't come to", self.wish_surely.ends(end) - seen)

    def told(self, end):
        """Tells who saw the frame of an end; beside that how far it goes by the definition of reach, where that is farther."""
        seen, reached = (", ".join(map(str, sorted(it))) or "nobody" for it in (self.seen[end], self.perhaps.ends(end)))
        return f"{self.of(end)}: {seen}" + (f"; by reach {reached}" if seen != reached else "")

    def look_at_all(self):
        """Adds the differences of all ends."""
        for end in self.ends:
            if not self.wanted.owner(end):
                self.differences.append(f"strange {end} of nobody: no experiment wants that row")
        for end in self.senders:
            self.look_at(end, self.seen[end])
        for end in sorted(set(self.wanted.owners) - set(self.places)):
            self.differ("lacks", end, "it has no interface to send by, so its frame didn't come to", self.wish_surely.ends(end))

    def run(self):
        """Sends frames and echo requests, and gives what they tell."""
        wait, reached = slowest(self.plan), {end: self.surely.ends(end) for end in self.senders}
        self.seen = Frames({**self.places, **self.plan.loose()}, self.senders, self.joined).run(reached, wait)
        self.look_at_all()
        asked = list(pairs(self.wanted, self.wish_surely))
        silent = Pings(self.places, self.wanted.addresses, asked).run(wait)
        for one, other in silent:
            self.differ("silent", one, "no answer from", {other})
        numbers = [f"frames {len(self.senders)}, seen {sum(map(len, self.seen.values()))}",
                   f"pings {len(asked)}, answered {len(asked) - len(silent)}", f"differences {len(self.differences)}"]
        return Told(numbers, [self.told(end) for end in self.senders], self.differences)
