"""How far frames go: by the definition of reach over rows and pipes, and by what the experiments want."""
from .net_lab import ALL


def surely(rates):
    """Whether each frame passes a direction of a pipe."""
    return rates.loss == 0


def perhaps(rates):
    """Whether a frame may pass it."""
    return rates.loss < ALL


class Reach:
    """The definition of reach over rows and pipes, where frames pass the directions of pipes that `passes` takes.

    Two points are next to each other where they have one id and one switch, or one id and the two ports of one trunk, or where they are
    at the two interfaces that a pipe joins on its node. A frame goes from point to point.
    """

    def __init__(self, cables, rows, pipes, passes):
        self.cables, self.rows = cables, rows
        self.on_switch, self.on_port, self.piped, self.found = {}, {}, {}, {}
        for row in rows:
            self.on_switch.setdefault((row.switch, row.vlan), []).append(row)
            self.on_port.setdefault((row.switch, row.port), []).append(row)
        for pipe in pipes:
            first, second = (cables.ports.get((pipe.machine, it)) for it in (pipe.first, pipe.second))
            for one, other, rates in ((first, second, pipe.there), (second, first, pipe.back)):
                if one and other and passes(rates):
                    self.piped.setdefault(one, []).append(other)

    def beside(self, point):
        """Gives the points next to this one."""
        yield from self.on_switch[point.switch, point.vlan]
        across = self.cables.across.get((point.switch, point.port))
        yield from (row for row in self.on_port.get(across, ()) if row.vlan == point.vlan)
        for port in self.piped.get((point.switch, point.port), ()):
            yield from self.on_port.get(port, ())

    def points(self, point):
        """Gives the points that a frame at this row reaches; none where the row doesn't stand."""
        # (points of one id and one switch are next to each other, so they reach alike)
        group = (point.switch, point.vlan)
        if point not in self.rows:
            return set()
        if group not in self.found:
            reached, left = {point}, [point]
            while left:
                new = set(self.beside(left.pop())) - reached
                reached |= new
                left += new
            self.found[group] = reached
        return self.found[group]

    def ends(self, end):
        """Gives the other ends that a frame of this one reaches."""
        reached = (self.cables.end(point) for point in self.points(self.cables.point(end)))
        return {it for it in reached if it and it != end}


class Wishes:
    """How far frames go by what the experiments want: over the ends of segments, and the pipes between them."""

    def __init__(self, wanted, passes):
        self.segment_of = {end: segment.ends for segment in wanted.segments for end in segment.ends}
        self.piped, self.found = {}, {}
        for first, second, there, back in wanted.pipes:
            for one, other, rates in ((first, second, there), (second, first, back)):
                if passes(rates):
                    self.piped.setdefault(one, []).append(other)

    def ends(self, end):
        """Gives the other ends that a frame of this one reaches."""
        if end not in self.found:
            reached, left = {end}, [end]
            while left:
                at = left.pop()
                new = {*self.segment_of.get(at, ()), *self.piped.get(at, ())} - reached
                reached |= new
                left += new
            self.found[end] = reached - {end}
        return self.found[end]


class Groups:
    """Which points are joined already, by a switch, a trunk, or what was joined since."""

    def __init__(self, cables, rows):
        self.above = {(row.switch, row.vlan): (row.switch, row.vlan) for row in rows}
        for row in rows:
            across = cables.across.get((row.switch, row.port))
            if across and row._replace(switch=across[0], port=across[1]) in rows:
                self.join((row.switch, row.vlan), (across[0], row.vlan))

    def top(self, group):
        """Gives the one of its joined groups that stands for all."""
        while self.above[group] != group:
            group = self.above[group]
        return group

    def join(self, one, other):
        """Joins two groups; tells whether they weren't joined yet."""
        one, other = self.top(one), self.top(other)
        self.above[one] = other
        return one != other
