"""Labs and worlds for the trials of lab net: drawn ones, those of the rows, and reach over them by the definition word for word."""
import re

from labcli.net_lab import Cables, Held, Point, Wanted, World
from labcli.net_reach import Reach, surely


def world(text, rows, pipes=""):
    """Gives a world without experiments: a lab's text, rows as s1:1:100, and lines of pipes."""
    lines = "".join(f"row {row.replace(':', ' ')}\n" for row in rows.split())
    return World(Cables(text.splitlines()), Held(lines + pipes), Wanted([], {}))


def naive(it):
    """Gives each pair of ends of which one reaches the other, by the definition word for word: what is next to each other, closed."""
    cables, rows = it.cables, sorted(it.held.rows)

    def at(pipe, interface, row):
        return cables.ports.get((pipe.machine, interface)) == (row.switch, row.port)

    def is_next(p, q):
        one, other = (p.switch, p.port), (q.switch, q.port)
        return (p.vlan == q.vlan and p.switch == q.switch
                or p.vlan == q.vlan and ((one, other) in cables.trunks or (other, one) in cables.trunks)
                or any(at(pipe, pipe.first, p) and at(pipe, pipe.second, q) or at(pipe, pipe.second, p) and at(pipe, pipe.first, q)
                       for pipe in it.held.pipes))

    reached = {p: {q for q in rows if q == p or is_next(p, q)} for p in rows}
    for mid in rows:
        for p in rows:
            if mid in reached[p]:
                reached[p] |= reached[mid]
    ends = {p: cables.end(p) for p in rows}
    return {(ends[p], ends[q]) for p in rows for q in reached[p] if ends[p] and ends[q] and p != q}


def reach_pairs(it):
    """Gives each such pair by the program of lab net."""
    reach = Reach(it.cables, it.held.rows, it.held.pipes, surely)
    return {(end, other) for end in it.ends() for other in reach.ends(end)}


def rows_of(text, answered):
    """Gives the lab, the claims, and each world of the rows `isolated` with its answer."""
    lab = re.search(r"^text LAB (.*)$", text.rpartition("\nisolated LAB CLAIMED\n")[0].rpartition("\n# Switches s1")[2], re.M)[1].replace("\\n", "\n")
    claims = re.search(r"^text CLAIMED (.*)$", text.partition("\nisolated LAB CLAIMED\n")[0].rpartition("\n# Experiment e has")[2], re.M)[1].split()
    answers = re.findall(r"^== isolated LAB CLAIMED ?(.*)\n (yes|no)$", answered, re.M)
    return lab, claims, answers


def is_isolated(lab, claims, words):
    """Whether a world is isolated: each row has one owner, and rows that reach each other have the same."""
    owners = {}
    for *owner, switch, port, vlan in (it.split(":") for it in claims + [it for it in words if it.count(":") == 5]):
        owners.setdefault(Point(switch, int(port), int(vlan)), set()).add(tuple(owner))
    rows = " ".join(it for it in words if it.count(":") == 2)
    pipes = "".join(f"pipe {node} 0 {first} {second} 0 0 0 0 0 0\n" for _, node, first, second in (it.split(":") for it in words if it.count(":") == 3))
    it = world(lab, rows, pipes)
    reach = Reach(it.cables, it.held.rows, it.held.pipes, surely)
    return all(len(owners.get(q, ())) == 1 and owners[q] == owners.get(p) for p in it.held.rows for q in reach.points(p))


def drawn_world(draw, losses=(0,)):
    """Draws a lab with rows and pipes as no controller would leave them; of the losses each direction of a pipe has one."""
    switches, lines, rows, pipes = draw.randint(1, 4), [], [], []
    lines += [f"node s{n} switch" for n in range(switches)]
    lines += [f"link t{n} s{n}:{100 + n} s{draw.randrange(n)}:{200 + n} 1" for n in range(1, switches)]
    for line in lines[switches:]:
        for port in line.split()[2:4]:
            rows += [f"{port}:{vlan}" for vlan in range(100, 104) if draw.random() < 0.7]
    for m in range(draw.randint(2, 8)):
        interfaces = draw.randint(1, 4)
        lines.append(f"node m{m} pc:1")
        for k in range(interfaces):
            port = f"s{draw.randrange(switches)}:{m * 4 + k + 1}"
            lines.append(f"link m{m}-{k} m{m}:e{k} {port} 1")
            rows += [f"{port}:{vlan}" for vlan in draw.sample(range(100, 104), draw.choice((0, 1, 1, 1, 1, 2)))]
        for number in range(draw.choice((0, 0, 0, 1, 1, 2)) if interfaces > 1 else 0):
            first, second = draw.sample(range(interfaces), 2)
            pipes.append(f"pipe m{m} {number} e{first} e{second} 100000 0 {draw.choice(losses)} 100000 0 {draw.choice(losses)}\n")
    return world("\n".join(lines), " ".join(rows), "".join(pipes))


def big_lab():
    """A lab of four switches and 52 machines: 36 of four interfaces, six that are fast and have eight, and ten that shape two links each."""
    lines = ["vlans 100 299"] + [f"node s{n} switch" for n in range(4)]
    machines = [(f"pc{n}", "pc:1", 4) for n in range(36)] + [(f"big{n}", "pc:1 fast:1", 8) for n in range(6)] + [(f"d{n}", "delay:2", 4) for n in range(10)]
    for number, (name, types, interfaces) in enumerate(machines):
        lines.append(f"node {name} {types}")
        lines += [f"link {name}-{k} {name}:eth{k} s{number % 4}:{number * 8 + k + 1} 1000000" for k in range(interfaces)]
    return "\n".join(lines + [f"link t{n} s0:{1000 + n} s{n}:1000 100000000" for n in range(1, 4)]) + "\n"


def drawn_lab(draw):
    """Draws a lab, and NS texts for it."""
    switches, count = draw.randint(1, 4), draw.randint(6, 14)
    lines = ["vlans 100 299"] + [f"node s{n} switch" for n in range(switches)]
    lines += [f"link t{n} s{draw.randrange(n)}:{900 + n} s{n}:{800 + n} 10000000" for n in range(1, switches)]
    for m in range(count):
        kind, interfaces = ("delay:2", 4) if m % 3 == 2 else ("pc:1", draw.randint(2, 4))
        lines.append(f"node m{m} {kind}")
        lines += [f"link m{m}-{k} m{m}:eth{k} s{draw.randrange(switches)}:{m * 4 + k + 1} 1000000" for k in range(interfaces)]
    texts = []
    for _ in range(3):
        nodes = [f"$n({k})" for k in range(draw.randint(2, 4))]
        text = ["set ns [new Simulator]"] + [f"set n({k}) [$ns node]" for k in range(len(nodes))]
        for k in range(draw.randint(1, 3)):
            some = draw.sample(nodes, draw.randint(2, len(nodes)))
            delay = draw.choice((0, 0, 0, 8))
            made = f"duplex-link {' '.join(some[:2])} 100Mb {delay}ms DropTail" if len(some) == 2 else f'make-lan "{" ".join(some)}" 100Mb {delay}ms'
            text += [f"set l{k} [$ns {made}]"] + ([f"tb-set-multiplexed $l{k} 1"] if draw.random() < 0.5 else [])
        texts.append("\n".join([*text, "$ns run"]) + "\n")
    return "\n".join(lines) + "\n", texts
