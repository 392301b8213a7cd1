"""The words that search a place: where the search gives up, other orders of the nodes are tried, round machines out of service.

These tries are runs in memory, over a lab that has what the others leave. The place that is found goes to the program, which judges it."""
import sys

from .codes import REFUSED, UNKNOWN, Worst, Wrong
from .orders import cheapest, ordered, placed
from .running import Run
from .shown import shown_of
from .stock import left_for
from .texts import Command, Text

# The replies behind which other orders, or what is short, are looked for.
FAILED = ("gave up", "none")
# How often a place is searched that breaks a rule once it is judged: alone, and where a server lets others go between.
ALONE, SERVED = 2, 5


class Found:
    """A place that was found: how, its cost, and its lines."""

    def __init__(self, kind, cost, lines):
        self.kind, self.cost, self.lines = kind, cost, lines


def as_bytes(lines):
    return "".join(f"{line}\n" for line in lines).encode()


def in_memory(cost):
    """Gives what runs a script in memory and gives its replies."""
    def run(script):
        one = Run(None, quiet=True, cost=cost)
        one.of(script.encode() if isinstance(script, str) else script)
        return one.replies
    return run


def asked_for(lab, command):
    """Gives what a command asks a place for; nothing where the command is refused, whatever place there is."""
    exp = command.head.split(" ")[1]
    if command.word() != "modify":
        replies = lab.ask(f"show {exp}\n")
        return shown_of(replies)[0] if replies[0] == f"show {exp} out" else None
    if not lab.ask(f"show {exp}\n")[0] == f"show {exp} in":
        return None
    replies = in_memory(None)(b"ptop 1\nnode s1 switch\n" + Command(f"create {exp}", *command.texts).script() + f"show {exp}\n".encode())
    return shown_of(replies[2:])[0] if replies[1].startswith("created ") else None


def around(lab, command, asked, left):
    """Searches in memory, round machines out of service. Gives the replies, and the place where there is one."""
    exp, seed = command.head.split(" ")[1:3]
    text, top = left.text(), ordered(asked, [words[1] for words in asked.of("node")])
    script = [f"ptop {len(text)}", *text, f"create-top {exp} {len(top)}", *top, f"solve {exp} {seed}", ""]
    made, _, *replies = in_memory(lab.cost)("\n".join(script)) + [""] * 2
    if not made.startswith("lab "):
        raise Wrong(UNKNOWN, f"what is left of the lab is none: {made}")
    replies, found = [line for line in replies if line], placed(replies)
    return replies, Found(replies[0].partition(" ")[0], *found[0]) if found else None


def elsewhere(lab, command, asked, left):
    """Looks for a place in other orders. Gives it where there is one."""
    seed = command.head.split(" ")[2]
    best, tried, number = cheapest(left, asked, seed, in_memory(lab.cost))
    if not best:
        print(f"  {tried} other orders of its nodes were tried, and none has a place", file=sys.stderr)
        return None
    print(f"  the search gave up; of {tried} other orders of the nodes {number} have a place, the cheapest of cost {best[0]}", file=sys.stderr)
    return Found("local", *best)


def taken(lab, command, asked, found):
    """Does a command at the place that was found for it. Gives the status, and in its place the reply where that place breaks a rule by now."""
    exp = command.head.split(" ")[1]
    if command.word() == "solve":
        lab.tell([f"{found.kind} {exp} {found.cost}", *found.lines, f"end {exp}"])
        return 0, None
    texts = [Text("the place that was found", as_bytes(found.lines))]
    if command.word() == "modify":
        texts.insert(0, Text("its text", as_bytes(asked.top)))
    run = lab.run(kept_back=("infeasible",))
    status = lab.taken(run, Command(f"{'swapin' if command.word() == 'swapin' else 'modify'}-with {exp}", *texts))
    broken = next((line for line in run.replies if line.startswith("infeasible ")), None)
    return status, broken


def ended(lab, command, replies, asked, off):
    """Tells replies without a place, and what is short."""
    worst = Worst()
    for line in replies:
        worst.see(line)
    lab.tell(replies)
    lab.advise(command, replies)
    if asked:
        from .shortage import shortage
        for line in shortage(lab, asked, off):
            print(f"  {line}", file=sys.stderr)
    return worst.status


def as_it_is(lab, command):
    """Does the command as it is. Gives its replies, and the status where more isn't tried behind them."""
    run = lab.run(kept_back=FAILED)
    status = lab.taken(run, command)
    if run.replies and run.replies[-1].startswith(FAILED):
        return run.replies, None
    if status:
        lab.advise(command, run.replies)
    return run.replies, status


def found_for(lab, command, asked, off, replies, number):
    """Looks for a place where the command as it is found none, or may not be done. Gives replies, and the place."""
    exp, found = command.head.split(" ")[1], None
    left = left_for(lab, exp, off, with_own=number == 0)
    if replies is None:
        replies, found = around(lab, command, asked, left)
    if found is None and replies[-1:] == [f"gave up {exp}"]:
        found = elsewhere(lab, command, asked, left)
    return replies, found


def search(lab, command):
    """Does a command that searches. Where a place is taken meanwhile, as a server lets others go between, all is tried anew."""
    off, broken = lab.off(), None
    for number in range(SERVED if lab.served() else ALONE):
        asked, replies, found = asked_for(lab, command) if off else None, None, None
        if not asked:
            replies, status = as_it_is(lab, command)
            if status is not None:
                return status
            asked = asked_for(lab, command)
        if asked:
            replies, found = found_for(lab, command, asked, off, replies, number)
        if not replies:
            raise Wrong(UNKNOWN, "labctl told nothing")
        if found is None:
            return ended(lab, command, replies, asked, off)
        status, broken = taken(lab, command, asked, found)
        if not broken:
            return status
    raise Wrong(REFUSED, f"places were found, and each broke a rule once it was judged, the last one {broken}; try again, or give a place")
