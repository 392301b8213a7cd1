"""The word `play`: the link events of an NS file, by a window of times or as they come due."""
import re
import sys
import time

from .codes import REFUSED, USAGE, Wrong
from .parsing import GREATEST_TIME
from .texts import Command, Text

UNITS = {"s": 1_000_000, "ms": 1000, "us": 1, "": 1}
# How many moments `now` looks for in a file.
MOMENTS = 64


def add(words):
    """Adds the parser."""
    parser = words.add("play", takes="nw", example="lab play ring demo.ns 0 1.5s; lab play ring demo.ns now waits for each event, and makes its change")
    parser.add_argument("exp", metavar="E", type=words.name)
    parser.add_argument("file", metavar="FILE")
    parser.add_argument("since", metavar="FROM")
    parser.add_argument("until", metavar="TO", nargs="?")


def microseconds(given):
    """Gives a time in microseconds: 1500000, 1.5s, 12s, 300ms or 20us."""
    found = re.fullmatch(r"([0-9]{1,20})(?:\.([0-9]{1,6}))?(s|ms|us|)", given)
    value = None
    if found and not (found[2] and found[3] in ("", "us")):
        value = int(found[1]) * UNITS[found[3]] + int((found[2] or "").ljust(6, "0")) * UNITS[found[3]] // 1_000_000
    if value is None or value > GREATEST_TIME:
        raise Wrong(USAGE, f"{given} is no time: microseconds from 0 to {GREATEST_TIME}, or as 12s, 1.5s or 300ms")
    return value


def of(exp, text, since, until):
    """Gives the command that plays the events of a window."""
    return Command(f"play {exp} {since} {until}", text)


def counts(copied, exp, text, windows):
    """Gives how many events of each window are played, all in one run."""
    replies = copied.ask(b"".join(of(exp, text, since, until).script() for since, until in windows))
    if len(replies) != len(windows) or not all(line.startswith(f"played {exp} ") for line in replies):
        wrong = next((line for line in replies if not line.startswith("played ")), "no reply")
        raise Wrong(REFUSED, f"{wrong}: lab -n play {exp} {text.path} 0 {GREATEST_TIME} tells more")
    return [int(line.split(" ")[2]) for line in replies]


def moments(copied, exp, text):
    """Gives the moments of the events of a text, found on a copy by halving windows."""
    windows = [(0, GREATEST_TIME)]
    while True:
        windows = [it for it, number in zip(windows, counts(copied, exp, text, windows)) if number]
        if len(windows) > MOMENTS:
            raise Wrong(REFUSED, f"{text.path} has events at more than {MOMENTS} moments; play them by FROM and TO")
        if all(until - since == 1 for since, until in windows):
            return [since for since, _ in windows]
        halves = [(since, (since + until) // 2, until) for since, until in windows]
        windows = [it for since, middle, until in halves for it in ((since, middle), (middle, until)) if it[0] < it[1]]


def play_now(lab, exp, text):
    """Waits for each event, and makes its change."""
    with lab.copy() as copied:
        due = moments(copied, exp, text)
    if lab.folder:
        # (others may use the folder between two events)
        lab.folder.release()
        lab.folder = None
    print(f"  events at {', '.join(f'{it / 1e6:g} s' for it in due) or 'no moment'}", file=sys.stderr, flush=True)
    began, status = time.monotonic(), 0
    for moment in due:
        time.sleep(max(0.0, began + moment / 1e6 - time.monotonic()))
        status = max(status, lab.do(of(exp, text, moment, moment + 1)))
        if lab.folder:
            lab.folder.release()
            lab.folder = None
        if status:
            break
    return status


def run(args, lab):
    """Plays."""
    if args.since == "now":
        if args.until or lab.dry:
            raise Wrong(USAGE, "now stands alone, without TO and -n: lab play E FILE now")
        return play_now(lab, args.exp, Text(args.file))
    if args.until is None:
        raise Wrong(USAGE, "usage: lab play E FILE FROM TO, or lab play E FILE now")
    since, until = microseconds(args.since), microseconds(args.until)
    command = of(args.exp, Text(args.file), since, until)
    if lab.dry:
        from .dry import dry
        return dry(lab, lambda copied: copied.do(command, new=True))
    return lab.do(command)
