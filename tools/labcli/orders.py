"""Other orders of an experiment's nodes: a search begins where their order puts them, and finds in one what it misses in another."""
import collections
import random
import time

# How many orders are drawn at most, the same ones each time; behind how many one place is enough; and how many are tried in one run.
DRAWN, ENOUGH, AT_ONCE = 600, 60, 20
# How many parts of a lab are tried by themselves.
PARTS = 12
# The seconds after which no further run begins.
LIMIT = 30


def along_links(names, ends, neighbours):
    """Gives names from the ones with most ends on, each followed by its neighbours."""
    hard, seen, told = sorted(names, key=lambda name: -ends[name]), set(), []
    for root in hard:
        row = [] if root in seen else [root]
        seen.add(root)
        while row:
            name = row.pop(0)
            told.append(name)
            near = sorted((it for it in neighbours[name] if it not in seen), key=lambda it: -ends[it])
            seen.update(near)
            row += near
    return told


def orders(asked):
    """Gives other orders of the names of an experiment's virtual nodes: some that are thought of, and drawn ones."""
    names = [words[1] for words in asked.of("node")]
    fixed = {words[1] for words in asked.of("fix-node")}
    kinds = collections.Counter(words[2] for words in asked.of("node"))
    kind = {words[1]: words[2] for words in asked.of("node")}
    ends, neighbours = collections.Counter(), collections.defaultdict(dict)
    for _, _, _, members in asked.ends():
        nodes = [node for node, _, _ in members]
        ends.update(nodes)
        for node in nodes:
            neighbours[node].update(dict.fromkeys(it for it in nodes if it != node))
    hard = sorted(names, key=lambda name: -ends[name])
    scarce = sorted(names, key=lambda name: (name not in fixed, kinds[kind[name]], -ends[name]))
    along = along_links(names, ends, neighbours)
    thought = [hard, scarce, along, along_links(names, collections.Counter(), neighbours), list(reversed(along))]
    draws, drawn = random.Random(1), []
    for number in range(DRAWN):
        order = list(names)
        draws.shuffle(order)
        # (of three one keeps those with most ends in front, one goes along links, and one is free)
        weights = collections.Counter({name: place for place, name in enumerate(order)})
        drawn.append([order, sorted(order, key=lambda name: -ends[name]), along_links(order, weights, neighbours)][number % 3])
    return [list(it) for it in dict.fromkeys(map(tuple, thought))], drawn


def ordered(asked, order):
    """Gives the lines of a top text whose nodes stand in this order: classes, nodes, and the rest."""
    lines = {line.split(" ")[1]: line for line in asked.top if line.startswith("node ")}
    first = [line for line in asked.top if line.startswith("make-vclass ")]
    rest = [line for line in asked.top if line.partition(" ")[0] not in ("node", "make-vclass")]
    return [*first, *[lines[name] for name in order], *rest]


def placed(replies):
    """Gives the cost and the lines of each place that replies to `solve` tell."""
    found, lines, cost = [], None, 0
    for line in replies:
        words = line.split(" ")
        if words[0] in ("least", "local"):
            cost, lines = int(words[2]), []
        elif words[0] == "end" and lines is not None:
            found.append((cost, lines))
            lines = None
        elif lines is not None:
            lines.append(line)
    return found


def tries(left, asked):
    """Gives, for one run each, the text of a lab and orders of the nodes. First come orders that are thought of, over all that is left, over
    machines with fewest interfaces first, and over parts of the lab; then drawn ones."""
    thought, drawn = orders(asked)
    for text in (left.text(), left.text(fewest_first=True)):
        yield text, thought, True
    for part in left.stock.parts(left.machines, len(thought[0]))[:PARTS]:
        yield left.text(part, fewest_first=True), thought, True
    for at in range(0, len(drawn), AT_ONCE):
        yield left.text(fewest_first=at // AT_ONCE % 2 == 1), drawn[at:at + AT_ONCE], False


def cheapest(left, asked, seed, run):
    """Tries other orders: gives the cheapest cost and place, how many were tried, and how many have one. `run` gives the replies to a script."""
    until, best, tried, number = time.monotonic() + LIMIT, None, 0, 0
    for text, some, is_thought in tries(left, asked):
        if time.monotonic() > until or best and not is_thought and tried >= ENOUGH:
            break
        script = [f"ptop {len(text)}", *text]
        for order in some:
            top = ordered(asked, order)
            script += [f"create-top {asked.name} {len(top)}", *top, f"solve {asked.name} {seed}", f"delete {asked.name}"]
        found = placed(run("\n".join([*script, ""])))
        tried, number = tried + len(some), number + len(found)
        best = min([*([best] if best else []), *found], key=lambda it: it[0], default=None)
    return best, tried, number
