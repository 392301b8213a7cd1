"""Which programs stand: their builds, by what `./install` noted or where they were found, and the sum of the logic that proved them."""
import hashlib
import os
import re

from .programs import HERE, program

# What `./install` notes beside the package: a line `PROGRAM KIND SUM LOGIC SOURCE` for each program.
NOTED = f"{HERE}/../built"
KINDS = {"proved": "proved", "fast": "without proof", "checked": "without proof, tests its contracts"}


def noted():
    """Gives what was noted of each program as it was installed."""
    try:
        with open(NOTED, encoding="utf-8") as it:
            return {words[0]: words[1:] for words in map(str.split, it) if len(words) == 5}
    except OSError:
        return {}


def sum_of(path):
    """Gives the sum of a file."""
    with open(path, "rb") as it:
        return hashlib.sha256(it.read()).hexdigest()[:16]


def logic():
    """Gives the sum of the logic that the README of a clone names."""
    try:
        with open(f"{HERE}/../../README.md", encoding="utf-8") as it:
            found = re.search(r"`([0-9a-f]{16})`", it.read())
            return found[1] if found else "unknown"
    except OSError:
        return "unknown"


def source():
    """Gives the commit of a clone."""
    top = f"{HERE}/../.."
    try:
        with open(f"{top}/.git/HEAD", encoding="utf-8") as it:
            head = it.read().strip()
        if head.startswith("ref: "):
            with open(f"{top}/.git/{head[5:]}", encoding="utf-8") as it:
                head = it.read().strip()
        return head[:12]
    except OSError:
        return "unknown"


def of(name, notes):
    """Gives the line of a program."""
    path = program(name)
    if not path or not os.path.isfile(path):
        return f"{name}: none stands"
    found = sum_of(path)
    told = notes.get(name)
    if told and told[1] == found:
        return f"{name}: {KINDS.get(told[0], told[0])}, logic {told[2]}, source {told[3]}, sum {found}, {os.path.realpath(path)}"
    out = re.fullmatch(rf".*/crates/{name}/out/{name}(?:_(fast|checked))?", os.path.realpath(path))
    kind = KINDS[out[1] or "proved"] if out else "a build that nothing was noted of"
    return f"{name}: {kind}{', logic ' + logic() if out else ''}, sum {found}, {os.path.realpath(path)}"


def told():
    """Gives a line for each program."""
    notes = noted()
    mine = notes.get("labctl", ["", "", "", source()])[3]
    return [f"lab: source {mine}, {HERE}", *[of(name, notes) for name in ("labctl", "labview")]]
