"""Why a search found no place: where the lab has less than an experiment asks for."""
from .stock import Stock

# A weight from which on a desire or a feature is no cost, but has to fit.
HARD = 1000


class Wanted:
    """A virtual node as the counts see it: its types, its hard desires, and the kbps of its ends, each of an interface of its own."""

    def __init__(self, words, classes, rates, shared):
        self.name, self.kind, self.os = words[1:4]
        self.kinds = classes.get(self.kind, [self.kind])
        self.desires = {name: int(weight) for name, _, weight in (it.partition(":") for it in words[4:])}
        # (ends of multiplexed segments may all share one interface, which has the fastest of them at least)
        self.rates = sorted(rates + ([max(shared)] if shared else []), reverse=True)


def wanted_of(asked):
    """Gives the virtual nodes of an experiment, as the counts see them."""
    classes = {words[1]: words[3:] for words in asked.of("make-vclass")}
    multiplexed = {words[1] for words in asked.of("multiplex")}
    rates, shared = {}, {}
    for segment, _, kbps, ends in asked.ends():
        for node, _, _ in ends:
            (shared if segment in multiplexed else rates).setdefault(node, []).append(kbps)
    return [Wanted(words, classes, rates.get(words[1], []), shared.get(words[1], [])) for words in asked.of("node")]


def of_types(wanted, stock, free):
    """Tells of which types more is wanted than free machines have."""
    for kind in dict.fromkeys(it.kind for it in wanted):
        alike = [it for it in wanted if it.kind == kind]
        in_all = sum(machine.fits(alike[0].kinds) for machine in stock.machines.values())
        left = sum(stock.machines[name].fits(alike[0].kinds) for name in free)
        if left < len(alike):
            yield f"of type {kind} {len(alike)} are wanted, {left} are free, and the lab has {in_all}"


def is_short(alike, stock, free):
    """Whether nodes of one type are more than the free machines can be."""
    return sum(stock.machines[name].fits(alike[0].kinds) for name in free) < len(alike)


def of_interfaces(wanted, stock, free):
    """Tells of which nodes with many links there are more than free machines with so many interfaces that are fast enough; of no type that
    is short itself."""
    told, kinds = set(), {}
    for it in wanted:
        kinds.setdefault(it.kind, []).append(it)
    kinds = {kind: alike for kind, alike in kinds.items() if not is_short(alike, stock, free)}
    for number, kbps in sorted({(place + 1, rate) for it in wanted for place, rate in enumerate(it.rates)}, reverse=True):
        for kind, of_kind in kinds.items():
            alike = [it for it in of_kind if it.rates[number - 1:number] >= [kbps]]
            fitting = {name: machine for name, machine in stock.machines.items() if alike and machine.fits(alike[0].kinds)}
            room = sum(min(machine.fits(alike[0].kinds), machine.fast(kbps) // number) for name, machine in fitting.items() if name in free)
            names = frozenset(it.name for it in alike)
            if room >= len(alike) or names in told:
                continue
            told.add(names)
            most = max((machine.fast(kbps) for machine in fitting.values()), default=0)
            who = " ".join(sorted(names)[:4]) + (" .." if len(names) > 4 else "")
            if most < number:
                yield f"{who}: {number} links of {kbps} kbps or more, and no machine of type {kind} has more than {most} interfaces so fast"
            else:
                yield f"{who}: {number} links of {kbps} kbps or more, and {room} free machines of type {kind} have so many interfaces so fast"


def of_places(wanted, asked, stock, held):
    """Tells which fixed places are not there, are held, or are of another type."""
    nodes = {it.name: it for it in wanted}
    for _, name, place in asked.of("fix-node"):
        machine = stock.machines.get(place)
        if machine is None:
            yield f"{name} is fixed to {place}, which the lab doesn't have"
        elif place in held:
            yield f"{name} is fixed to {place}, which {held[place]} holds"
        elif not machine.fits(nodes[name].kinds):
            yield f"{name} is fixed to {place}, which isn't of type {nodes[name].kind}"


def of_features(wanted, stock, free):
    """Tells which nodes have a desire of weight 1000 that no free machine of their type meets, or meet only machines with such a feature."""
    for it in wanted:
        fitting = [stock.machines[name] for name in free if stock.machines[name].fits(it.kinds)]
        for desire in (name for name, weight in it.desires.items() if weight >= HARD):
            if fitting and not any(desire in machine.features for machine in fitting):
                yield f"{it.name} has to have {desire}, and no free machine of type {it.kind} has it"
        kept = [next((name for name, weight in machine.features.items() if weight >= HARD and name not in it.desires), None) for machine in fitting]
        if fitting and all(kept):
            yield f"{it.name} would have to desire {kept[0]}, which each free machine of type {it.kind} keeps for nodes that do"


def of_trunks(wanted, asked, trunks):
    """Tells which trunks have less left than the slowest segment of an experiment wants."""
    least = min((kbps for _, _, kbps, _ in asked.ends()), default=0)
    full = [f"{name} ({left} kbps)" for name, left in trunks.items() if left < least]
    if full and len(wanted) > 1:
        yield f"no segment can go over {', '.join(full[:4])}{' ..' if len(full) > 4 else ''}: the slowest wants {least} kbps"


def reasons(asked, stock, held, off, trunks, free_ids):
    """Tells where an experiment asks for more than is left. `held` has the holder of each machine that another claims."""
    wanted = wanted_of(asked)
    free = [name for name in stock.machines if name not in held and name not in off]
    found = [*of_types(wanted, stock, free), *of_interfaces(wanted, stock, free), *of_places(wanted, asked, stock, held),
             *of_features(wanted, stock, free), *of_trunks(wanted, asked, trunks)]
    segments = len(asked.of("link"))
    if segments > free_ids:
        found.append(f"{segments} VLAN ids are wanted, and {free_ids} are free")
    if found and off:
        found.append(f"out of service: {' '.join(sorted(off))}")
    return found or ["each count has enough, so it is how links share trunks and interfaces, or nodes a machine: fix some nodes (lab help in)"]


def shortage(lab, asked, off=()):
    """Tells, for an experiment that no search found a place for, what is short. What it holds itself is free for its change."""
    from .looks import looked
    found = looked(lab)
    held = {machine: exp for machine, exp in found.held.items() if exp != asked.name}
    return reasons(asked, Stock(lab.text()), held, off, found.trunks, lab.free_ids())
