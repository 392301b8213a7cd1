"""NS files as users write them, and where there is no place for one."""
import os

from .rooms import TOP, Trial


def lab_text():
    """A lab of four switches in a star, 36 machines, of which six are fast and have more interfaces, and eight that shape links."""
    lines = ["vlans 100 199"] + [f"node s{n} switch" for n in range(1, 5)]
    machines = [(f"pc{n}", "pc:1", 4) for n in range(1, 31)] + [(f"big{n}", "pc:1 fast:1", 8) for n in range(1, 7)]
    machines += [(f"d{n}", "delay:1", 2) for n in range(1, 9)]
    ports = dict.fromkeys(range(1, 5), 0)
    lines += [f"node {name} {types}" for name, types, _ in machines]
    for number, (name, _, interfaces) in enumerate(machines):
        switch = number % 4 + 1
        for k in range(interfaces):
            ports[switch] += 1
            lines.append(f"link {name}-{k} {name}:eth{k} s{switch}:{ports[switch]} 1000000")
    lines += [f"link t{n} s1:{1000 + n} s{n}:1000 100000000" for n in range(2, 5)]
    return "\n".join(lines) + "\n"


def foretold(room, folder, *words):
    """Does a command after a dry run of it; what that told of the tables has to come. Gives what was run."""
    before, held = room.tables(folder), {}
    for name in ("journal.a", "journal.b", "tables"):
        if os.path.exists(f"{room.path}/{folder}/{name}"):
            with open(f"{room.path}/{folder}/{name}", "rb") as it:
                held[name] = it.read()
    dry = room.run("-n", *words, folder=folder)
    for name, text in held.items():
        with open(f"{room.path}/{folder}/{name}", "rb") as it:
            room.same(f"{words}: {name} after a dry run", it.read() == text, True)
    ran = room.run(*words, folder=folder)
    gone = {line[4:] for line in dry.stdout.splitlines() if line.startswith("  - ")}
    come = {line[4:] for line in dry.stdout.splitlines() if line.startswith("  + ")}
    room.same(f"{words}: the tables", room.tables(folder), (before - gone) | come)
    room.same(f"{words}: the dry run's reply", dry.stdout.partition("would change")[0], ran.stdout)
    room.same(f"{words}: the dry run's status", dry.returncode, ran.returncode)
    return ran


class Networks(Trial):
    """Networks that come and go."""

    def test_networks(self):
        """NS files as users write them are made and swapped in and out, as dry runs foretell, and no row is left."""
        room = self.room
        room.same("set", room.run("set", room.file("text.ptop", lab_text()), folder="lab").returncode, 0)
        files = sorted(os.listdir(f"{TOP}/tools/networks"))
        room.same("their number", len(files) >= 20, True)
        for file in files:
            name = file.removesuffix(".ns")
            made = room.run("create", name, f"{TOP}/tools/networks/{file}", folder="lab")
            room.same(f"create {name}", (made.returncode, made.stdout.split(" ")[0], made.stderr), (0, "created", ""))
            room.same(f"in {name}", foretold(room, "lab", "in", name).stdout, f"in {name}\n")
            room.same(f"out {name}", foretold(room, "lab", "out", name).stdout, f"out {name}\n")
            room.same(f"delete {name}", room.run("delete", name, folder="lab").returncode, 0)
        room.same("rows are left", [line for line in room.tables("lab") if line.startswith(("row", "pipe"))], [])

    def test_shortage(self):
        """Where a search finds no place, what is short is told."""
        room = self.room
        room.run("set", f"{TOP}/demo/rack.ptop", folder="lab")
        node = "set ns [new Simulator]\nset a [$ns node]\nset b [$ns node]\n"
        link = "set l [$ns duplex-link $a $b 100Mb 5ms DropTail]\n"
        for name, text, wanted in (
            ("other", "tb-set-hardware $a other\n" + link, ["of type other 1 are wanted, 0 are free, and the lab has 0"]),
            ("delays", "set c [$ns node]\nset lan [$ns make-lan \"$a $b $c\" 100Mb 5ms]\n", ["of type delay 3 are wanted, 2 are free, and the lab has 2"]),
            ("any", "tb-make-soft-vtype any {big other}\nforeach n \"1 2 3\" {set c($n) [$ns node]; tb-set-hardware $c($n) any}\n",
             ["of type any 3 are wanted, 2 are free, and the lab has 2"]),
            ("links", "foreach n \"1 2 3\" {set l($n) [$ns duplex-link $a $b 100Mb 0ms DropTail]}\n",
             ["a b: 3 links of 100000 kbps or more, and no machine of type pc has more than 2 interfaces so fast"]),
        ):
            room.run("create", name, room.file("text.ns", node + text + "$ns run\n"), folder="lab")
            ran = room.run("in", name, folder="lab")
            room.same(name, (ran.returncode, ran.stdout, ran.stderr.splitlines()), (10, f"none {name}\n", [f"  {line}" for line in wanted]))
