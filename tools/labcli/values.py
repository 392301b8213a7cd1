"""Replies as values for --json, by the manual's schema."""
import json

from .shown import Shown


def status(lines):
    """The value of `status`."""
    experiments = [line.split(" ")[1:] for line in lines[:-1]]
    return {"experiments": [{"name": name, "phase": phase, "machines": int(machines), "vlans": int(vlans)} for name, phase, machines, vlans in experiments],
            "free": dict(zip(("machines", "vlans"), map(int, lines[-1].split(" ")[1:])))}


def places(lines):
    """The machines and interfaces of a solution text, by the virtual nodes and ends that they serve."""
    words = [line.split(" ") for line in lines]
    return {"machines": {it[1]: {"machine": it[2], "type": it[3]} for it in words if it[0] == "node"},
            "plugs": {it[1]: it[2] for it in words if it[0] == "plug"}}


def show(lines):
    """The value of `show`."""
    exp = Shown(lines)
    nodes = [{"name": name, "type": kind, "os": system, "desires": {it.partition(":")[0]: int(it.partition(":")[2]) for it in desires}}
             for _, name, kind, system, *desires in exp.of("node")]
    multiplexed = {words[1] for words in exp.of("multiplex")}
    segments = [{"name": name, "link": owner, "kbps": kbps, "vlan": exp.tags.get(name), "multiplexed": name in multiplexed,
                 "ends": [{"node": node, "end": f"{node}:{number}", "address": address or None} for node, number, address in ends]}
                for name, owner, kbps, ends in exp.ends()]
    rates = ("kbps", "delay_us", "loss_ppm")
    pipes = [{"node": words[1], "from": int(words[2]), "to": int(words[3]), "there": dict(zip(rates, map(int, words[4:7]))),
              "back": dict(zip(rates, map(int, words[7:10])))} for words in exp.of("pipe")]
    return {"name": exp.name, "phase": exp.phase, "nodes": nodes, "segments": segments, "pipes": pipes,
            "classes": {words[1]: {"weight": int(words[2]), "types": words[3:]} for words in exp.of("make-vclass")},
            "fixed": {words[1]: words[2] for words in exp.of("fix-node")}, **places(exp.solution)}


def solve(lines):
    """The value of `solve`."""
    kind, name, cost = lines[0].split(" ")
    return {"name": name, "found": kind, "cost": int(cost), **places(lines[1:-1])}


def audit(lines):
    """The value of `audit`."""
    keys = {"lacks": ("switch", "port", "vlan"), "strange": ("switch", "port", "vlan"), "node": ("machine",)}
    told = []
    for kind, *words in (line.split(" ") for line in lines[1:]):
        told.append({"kind": kind, **{key: int(word) if key in ("port", "vlan") else word for key, word in zip(keys[kind], words)}})
    return {"differences": told}


def lab_map(lines, off):
    """The value of `map`."""
    switches, trunks, ids = [], [], []
    for word, *words in (line.split(" ") for line in lines):
        if word == "switch":
            switches.append({"name": words[0], "machines": []})
        elif word == "machine":
            state, exp, *nodes = [*words[1:], None][:max(2, len(words) - 1)]
            switches[-1]["machines"].append({"name": words[0], "state": state, "experiment": exp, "nodes": nodes, "off": words[0] in off})
        elif word == "trunk":
            trunks.append({"name": words[0], "ends": words[1:3], "left": int(words[3]), "kbps": int(words[5])})
        elif word == "ids":
            ids = words[1:]
    return {"switches": switches, "trunks": trunks, "free_ids": ids}


FORMS = {"status": (("exp", "free"), status), "show": (("show",), show), "solve": (("least", "local"), solve), "audit": (("audit",), audit)}


def tell(word, lines, code):
    """Tells the replies of a word as JSON: its value, or what refused it; of a word without a form the replies as they are, and the status."""
    first = (lines or [""])[0].partition(" ")[0]
    begins, form = FORMS.get(word, ((), None))
    if form is None:
        value = {"status": code, "replies": lines}
    elif first in begins:
        value = form(lines)
    else:
        value = {"refused": lines[-1] if lines else ""}
    print(json.dumps(value, indent=1))
