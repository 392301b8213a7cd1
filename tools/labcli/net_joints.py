"""The bridges within machines: what pipes join, as it can be made without a frame that goes round for ever."""
from typing import NamedTuple, Optional

from .net_lab import ALL, PLAIN, Pipe
from .net_reach import Groups


class Joint(NamedTuple):
    """Ends of a machine that are joined; where one pipe alone joins two of them, it stands with them."""
    machine: str
    ends: list
    pipe: Optional[Pipe]


def as_made(rates, netem):
    """Gives what a direction of a pipe does here to frames: without netem it loses all or nothing."""
    return rates if netem or rates.loss >= ALL else rates._replace(delay=0, loss=0)


def components(pipes):
    """Gives the pipes of each set of a machine's interfaces that pipes join."""
    sets = []
    for pipe in pipes:
        new = ({pipe.first, pipe.second}, [pipe])
        for old in [it for it in sets if it[1][0].machine == pipe.machine and it[0] & new[0]]:
            sets.remove(old)
            new = (old[0] | new[0], old[1] + new[1])
        sets.append(new)
    return [(sorted(interfaces), joined) for interfaces, joined in sets]


class Joints:
    """The joints of a lab, and the pipes as frames see them."""

    def __init__(self, cables, held, netem):
        self.made, self.pipes, self.notes, self.netem = [], [], [], netem
        self.groups = Groups(cables, held.rows)
        self.ends_at = {}
        for end in filter(None, map(cables.end, sorted(held.rows))):
            self.ends_at.setdefault((end.machine, end.interface), []).append(end)
        self.point = cables.point
        several, lossy = [], []
        for interfaces, joined in components([pipe for pipe in held.pipes if self.joins(pipe)]):
            ends = [end for it in interfaces for end in self.ends_at[joined[0].machine, it]]
            if len(joined) > 1 or len(ends) > 2:
                several.append((joined, ends))
            elif joined[0].there.loss or joined[0].back.loss:
                lossy.append(joined[0])
            else:
                self.join_two(joined[0])
        # (of two ways between two points the one that loses nothing is made)
        for joined, ends in several:
            self.join_several(joined, ends)
        for pipe in lossy:
            self.join_two(pipe)

    def joins(self, pipe):
        """Whether a pipe joins anything: two interfaces of a machine that have rows."""
        return pipe.first != pipe.second and all((pipe.machine, it) in self.ends_at for it in (pipe.first, pipe.second))

    def group(self, end):
        """Gives the points that an end is joined with by its switch."""
        point = self.point(end)
        return point.switch, point.vlan

    def join_two(self, pipe):
        """Makes the one pipe between two interfaces of one row each."""
        ends = [self.ends_at[pipe.machine, it][0] for it in (pipe.first, pipe.second)]
        if not self.groups.join(*map(self.group, ends)):
            self.notes.append(f"pipe {pipe.machine} {pipe.first} {pipe.second}: it closes a circle, and isn't made")
            return
        made = pipe._replace(there=as_made(pipe.there, self.netem), back=as_made(pipe.back, self.netem))
        self.pipes.append(made)
        self.made.append(Joint(pipe.machine, ends, made))

    def join_several(self, joined, ends):
        """Makes pipes that share interfaces, or whose interfaces have several rows, as one bridge that does nothing to frames."""
        machine, kept = joined[0].machine, ends[:1]
        for end in ends[1:]:
            if self.groups.join(self.group(kept[0]), self.group(end)):
                kept.append(end)
        named = ", ".join(f"{pipe.first} {pipe.second}" for pipe in joined)
        left = f", without {len(ends) - len(kept)} of its ends that close a circle" if len(kept) < len(ends) else ""
        self.notes.append(f"pipes {machine} {named}: several rows or pipes meet there, so they are joined without rates{left}")
        self.pipes += [pipe._replace(there=PLAIN, back=PLAIN) for pipe in joined]
        if len(kept) > 1:
            self.made.append(Joint(machine, kept, None))
