"""Words around a lab: other orders, machines out of service, what was done, values for scripts, pictures, and what is refused."""
import json
import os
import re
import shutil
import subprocess
import threading
import time
import xml.etree.ElementTree as xml

from .rooms import LAB, TOP, Trial, read

SHORT = "each count has enough, so it is how links share trunks and interfaces, or nodes a machine: fix some nodes (lab help in)"


def star(leaves, rate=1000):
    """Gives a star whose hub is declared last."""
    lines = [f"node n{k} pc linux" for k in range(leaves)] + ["node hub pc linux"]
    return "\n".join(lines + [f"link l{k} l{k} {rate} n{k} hub" for k in range(leaves)]) + "\n"


def wide_lab():
    """Gives a lab of thirty machines, of which three have six interfaces."""
    lines, links = ["vlans 2 400", "node s switch"], []
    for number in range(30):
        lines.append(f"node m{number} pc:1")
        links += [f"link c{number}-{k} m{number}:e{k} s:{6 * number + k + 1} 1000000" for k in range(6 if number < 3 else 2)]
    return "\n".join(lines + links) + "\n"


class Searches(Trial):
    """Places that a search misses, and the reason where there is none."""

    def setUp(self):
        super().setUp()
        self.room.run("set", self.room.file("wide.ptop", wide_lab()), folder="lab")
        self.room.run("create", "A", self.room.file("star.top", star(6)), folder="lab")

    def test_orders(self):
        """Where the search gives up, another order has a place; a dry run, solve and modify find it too."""
        room = self.room
        gave_up = room.labctl("solve A 1\n", "--dir", f"{room.path}/lab").stdout
        room.same("labctl alone", gave_up, "gave up A\n")
        note = "  the search gave up; of "
        for words, first in ((["-n", "in", "A"], "in A"), (["solve", "A"], "local A 0"), (["in", "A"], "in A"), (["out", "A"], "out A"), (["-v", "in", "A", "5"], "in A")):
            ran = room.run(*words, folder="lab")
            room.same(f"{words}", (ran.returncode, ran.stdout.splitlines()[0], ran.stderr.startswith(note)), (0, first, words[0] != "out"))
        room.same("audit", room.run("audit", folder="lab").stdout, "audit 0\n")
        script = "set ns [new Simulator]\n" + "".join(f"set n({k}) [$ns node]\n" for k in range(5)) + "set hub [$ns node]\n"
        script += "".join(f"set l({k}) [$ns duplex-link $n({k}) $hub 1Mb 0ms DropTail]\ntb-set-multiplexed $l({k}) 0\n" for k in range(5))
        change = room.file("star.ns", script.replace("1Mb", "10Mb") + "$ns run\n")
        room.same("labctl alone", room.labctl(f"modify A 1 {script.count(chr(10)) + 1}\n" + read_file(change), "--dir", f"{room.path}/lab").stdout, "gave up A\n")
        ran = room.run("modify", "A", change, folder="lab")
        room.same("modify", (ran.returncode, ran.stdout, ran.stderr.startswith(note)), (0, "in A\n", True))
        room.same("audit", room.run("audit", folder="lab").stdout, "audit 0\n")

    def test_reason(self):
        """Where no order has a place, the node is named; without labview too."""
        room = self.room
        room.run("create", "B", room.file("big.top", star(7)), folder="lab")
        wanted = ["  hub: 7 links of 1000 kbps or more, and no machine of type pc has more than 6 interfaces so fast"]
        for run in (room.run, room.bare):
            ran = run("in", "B", folder="lab")
            tried = re.fullmatch(r"  \d+ other orders of its nodes were tried, and none has a place", ran.stderr.splitlines()[0])
            room.same("in B", (ran.returncode, ran.stdout, bool(tried), ran.stderr.splitlines()[1:]), (10, "gave up B\n", True, wanted))

    def test_off(self):
        """Searches go round machines out of service, and no place may have one; one that is held is named."""
        room = self.room
        off = [f"m{number}" for number in (0, 1)]
        for name in off:
            ran = room.run("off", name, "fan", "is\tbroken", folder="lab")
            room.same(f"off {name}", (ran.returncode, ran.stdout, ran.stderr), (0, f"off {name}\n", ""))
        told = room.run("off", folder="lab").stdout.splitlines()
        room.same("the list", [re.sub(r"\d\d\d\d-\S+Z  \S+", "WHEN", line) for line in told], [f"{name}  WHEN  fan is\\tbroken" for name in off])
        room.same("in A", room.run("in", "A", folder="lab").stdout, "in A\n")
        held = {line.split(" ")[1] for line in room.run("map", folder="lab").stdout.splitlines() if " in A" in line}
        room.same("round them", (len(held), "m2" in held, held & set(off)), (7, True, set()))
        room.same("the map", [line for line in room.run("map", folder="lab").stdout.splitlines() if line.endswith(" off")], [f"machine {name} free off" for name in off])
        ran = room.run("off", "m2", folder="lab")
        room.same("one that is held", (ran.stdout, ran.stderr), ("off m2\n", "  A holds m2, and keeps it: lab out A frees it\n"))
        room.run("out", "A", folder="lab")
        ran = room.run("in", "A", folder="lab")
        room.same("none is left", (ran.returncode, ran.stdout, ran.stderr.splitlines()[-1]), (10, "gave up A\n", "  out of service: m0 m1 m2"))
        room.refused(["off", "m2"], 10, "m2 is out of service already; lab off lists")
        room.refused(["off", "m99"], 10, "the lab has no machine m99; lab map tells its machines")
        place = room.file("place", "node n0 m0 pc\n")
        room.refused(["in", "A", place], 10, "m0 is out of service; place the node elsewhere, or put it back: lab on m0")
        room.refused(["batch", "0", room.file("batch", "run A 1 5\n")], 10, "a batch searches past no machine, and m0 is out of service; lab in each run, or lab on m0")
        for name in (*off, "m2"):
            room.same(f"on {name}", room.run("on", name, folder="lab").stdout, f"on {name}\n")
        room.refused(["on", "m0"], 10, "m0 is in service")
        room.same("in again", room.run("in", "A", folder="lab").stdout, "in A\n")


def read_file(path):
    with open(path, encoding="utf-8") as it:
        return it.read()


class Told(Trial):
    """What is told of a lab beside replies."""

    def setUp(self):
        super().setUp()
        self.room.run("set", f"{TOP}/demo/rack.ptop", folder="lab")
        self.room.run("create", "ring", f"{TOP}/demo/ring.ns", folder="lab")
        self.room.run("in", "ring", folder="lab")

    def test_log(self):
        """What was done is noted, with who and how long; looks and dry runs are not."""
        room = self.room
        for words in (["status"], ["-n", "out", "ring"], ["solve", "ring"], ["out", "ring"], ["in", "nobody"], ["off", "pc1"], ["off"]):
            room.run(*words, folder="lab")
        entries = json.loads(room.run("log", "--json", folder="lab").stdout)
        wanted = [(f"set {TOP}/demo/rack.ptop", "lab 2 8 1"), (f"create ring {TOP}/demo/ring.ns", "created ring 4 4"), ("in ring", "in ring"),
                  ("out ring", "out ring"), ("in nobody", "unknown nobody"), ("off pc1", "off pc1")]
        room.same("what", [(it["command"], it["reply"]) for it in entries], wanted)
        room.same("when and who", all(re.fullmatch(r"\d{4}-\d\d-\d\dT\d\d:\d\d:\d\dZ", it["time"]) and it["user"] for it in entries), True)
        room.same("the last", [line.split("  ->  ")[1] for line in room.run("log", "2", folder="lab").stdout.splitlines()], ["unknown nobody", "off pc1"])
        room.same("of one", len(room.run("log", "--of", "ring", folder="lab").stdout.splitlines()), 3)
        room.refused(["log"], 73, f"there is no folder {room.path}/none; name one by -d", folder="none")
        os.mkdir(f"{room.path}/plain")
        room.refused(["log"], 10, f"nothing is noted in {room.path}/plain: lab and lab serve note what they change, labctl by itself doesn't", folder="plain")
        os.unlink(f"{room.path}/lab/log")
        os.symlink(room.file("elsewhere", ""), f"{room.path}/lab/log")
        ran = room.run("delete", "ring", folder="lab")
        room.same("a link", (ran.returncode, "can't be written" in ran.stderr, read_file(f"{room.path}/elsewhere")), (0, True, ""))

    def test_follow(self):
        """With -f lines are told as they come."""
        room = self.room
        running = subprocess.Popen([LAB, "-d", f"{room.path}/lab", "log", "-f"], stdout=subprocess.PIPE, encoding="utf-8", env=room.environment())
        told = [running.stdout.readline() for _ in range(3)]
        room.run("out", "ring", folder="lab")
        told.append(running.stdout.readline())
        running.kill()
        running.stdout.close()
        running.wait()
        room.same("lines", [line.rstrip().split("  ->  ")[1] for line in told][2:], ["in ring", "out ring"])

    def test_json(self):
        """Values tell what the replies tell; a refusal is one too, with its status."""
        room = self.room
        value = lambda *words: json.loads(room.run(*words, "--json", folder="lab").stdout)
        room.same("status", value("status"), {"experiments": [{"name": "ring", "phase": "in", "machines": 4, "vlans": 4}], "free": {"machines": 4, "vlans": 46}})
        told = value("show", "ring")
        room.same("show", (told["phase"], len(told["nodes"]), len(told["segments"]), set(told["machines"])), ("in", 4, 4, {"node-0", "node-1", "node-2", "far.d"}))
        room.same("audit", value("audit"), {"differences": []})
        held = [it["name"] for switch in value("map")["switches"] for it in switch["machines"] if it["experiment"] == "ring"]
        room.same("map", held, ["pc1", "pc2", "big1", "d1"])
        told = value("-n", "out", "ring")
        room.same("a dry run", (told["replies"], told["status"], len(told["gone"]), told["come"]), (["out ring"], 0, 13, []))
        ran = room.run("solve", "ring", "--json", folder="lab")
        room.same("a refusal", (ran.returncode, json.loads(ran.stdout)), (10, {"refused": "is in ring"}))
        room.run("out", "ring", folder="lab")
        told = value("solve", "ring")
        room.same("solve", (told["found"], told["cost"], len(told["plugs"])), ("least", 100, 8))
        room.same("in", value("in", "ring"), {"status": 0, "replies": ["in ring"]})
        room.same("off", value("off", "pc1"), {"status": 0, "replies": ["off pc1"]})
        room.same("off", [(it["machine"], it["held"]) for it in value("off")], [("pc1", "ring")])

    def test_pictures(self):
        """An experiment's picture is well formed, its hosts are told, and an inventory wants machines."""
        room = self.room
        picture = xml.fromstring(room.run("graph", "ring", folder="lab").stdout)
        room.same("a picture", len([it for it in picture.iter() if it.get("class") == "e"]), 4)
        room.same("a text of Graphviz", room.run("graph", "--dot", "ring", folder="lab").stdout.count(" -- "), 4)
        room.same("hosts", "10.1.1.1\tnode-0-near node-0-0 node-0\n" in room.run("hosts", "ring", folder="lab").stdout, True)
        room.same("an inventory", "node-2 ansible_host=big1 node_type=big\n" in room.run("hosts", "ring", "--ansible", folder="lab").stdout, True)
        room.run("out", "ring", folder="lab")
        room.refused(["hosts", "ring", "--ansible"], 10, "ring is out, so its nodes have no machines; lab in ring first")
        room.refused(["graph", "nobody"], 10, "unknown nobody")

    def test_versions(self):
        """Each program is told with its build."""
        lines = self.room.run(LAB, "--version").stdout.splitlines()
        self.room.same("programs", [line.partition(":")[0] for line in lines], ["lab", "labctl", "labview"])
        self.room.same("a build", re.search(r"sum [0-9a-f]{16}, /", lines[1]) is not None, True)

    def test_completion(self):
        """Words, experiments, machines, options and files are filled in."""
        room = self.room
        room.run("off", "pc4", folder="lab")
        asked = 'source tools/lab.bash; COMP_WORDS=("$@"); COMP_CWORD=$(($# - 1)); _lab; echo "${COMPREPLY[@]}"'
        for words, wanted in ((["de"], ["delete"]), (["in", "r"], ["ring"]), (["-d", "/nowhere", "in", "r"], []), (["off", "b"], ["big1", "big2"]), (["on", ""], ["pc4"]),
                              (["help", "gra"], ["graph"]), (["in", "ring", "--c"], ["--cost"]), (["in", "ring", "--cost", "p"], ["pack"]), (["set", "demo/rac"], ["demo/rack.ptop"]),
                              (["-d", "dem"], ["demo"]), (["out", "ring", ""], []), (["--v"], ["--version"])):
            given = words if words[0] == "-d" else ["-d", f"{room.path}/lab", *words]
            ran = subprocess.run(["bash", "-c", asked, "bash", LAB, *given], cwd=TOP, capture_output=True, text=True, env=room.environment())
            room.same(f"{words}", (ran.stdout.split(), ran.stderr), (wanted, ""))


class Refusals(Trial):
    """What is refused before anything is done, and in which words."""

    def test_told(self):
        """Each refusal is one line that names the cause and what to do."""
        room, lab = self.room, f"{self.room.path}/lab"
        room.refused(["status"], 10, f"no lab in {lab}; begin with: lab -d {lab} set FILE")
        for words, told in (
            (["in", "A", "99999999999999999999999"], "99999999999999999999999 is no seed: a number from 0 to 18446744073709551615; a file of that name is ./99999999999999999999999"),
            (["solve", "A", "place"], "place is no seed: a number from 0 to 18446744073709551615"),
            (["-n", "-v", "in", "A"], "-n and -v don't go together: a dry run is done whole on a copy, and -m has no folder"),
            (["view", "--svg", "--check"], "--check and --svg don't go together: look twice"),
            (["play", "A", "none.ns", "now"], "can't read none.ns: No such file or directory"),
            (["play", "A", f"{TOP}/demo/ring.ns", "now", "5s"], "now stands alone, without TO and -n: lab play E FILE now"),
            (["play", "A", f"{TOP}/demo/ring.ns", "5s"], "usage: lab play E FILE FROM TO, or lab play E FILE now"),
            (["help", "nothing"], "no such command: nothing; see lab --help"), (["status", "--away"], "lab status takes no --away; usage: lab status"),
        ):
            room.refused(words, 64, told)
        ran = room.run("status", folder="lab", LABCTL="/nowhere")
        room.same("no program", (ran.returncode, ran.stderr), (10, f"lab: no lab in {lab}; begin with: lab -d {lab} set FILE\n"))
        ran = room.run("set", f"{TOP}/demo/rack.ptop", folder="lab", LABCTL="/nowhere")
        room.same("no program", (ran.returncode, ran.stderr), (64, "lab: LABCTL names /nowhere, which is no program; mend it, or unset it\n"))

    def test_damage(self):
        """Over a damaged lab none is set; where there is nothing of a lab, one is."""
        room = self.room
        room.run("set", f"{TOP}/demo/rack.ptop", folder="lab")
        room.run("create", "ring", f"{TOP}/demo/ring.ns", folder="lab")
        room.run("in", "ring", folder="lab")
        told = f"{room.path}/bad holds a damaged lab, and a new one would be begun over it: see lab view --check, and set one in a new folder"
        for run in (room.run, room.bare):
            for damage in (os.unlink, lambda path: os.truncate(path, 12)):
                shutil.copytree(f"{room.path}/lab", f"{room.path}/bad")
                damage(f"{room.path}/bad/journal.a")
                room.refused(["set", f"{TOP}/demo/rack.ptop"], 10, told, folder="bad", run=run)
                shutil.rmtree(f"{room.path}/bad")
        ran = room.run("set", f"{TOP}/demo/rack.ptop", folder="lab")
        room.same("a lab", (ran.returncode, ran.stdout), (10, "lab is set\n"))

    def test_odd_names(self):
        """Names of files and folders that begin with a dash, or have blanks and other bytes, are names."""
        room = self.room
        for name in ("-d", "a b", "$(touch x)", "ü;*", "--dir", "b\nc"):
            path = os.path.join(room.path, name)
            ran = subprocess.run([LAB, "-d", name, "set", f"{TOP}/demo/rack.ptop"], capture_output=True, text=True, cwd=room.path, env=room.environment())
            room.same(f"set in {name}", (ran.returncode, ran.stdout), (0, "lab 2 8 1\n"))
            for words in (["status"], ["map"], ["view", "--check"], ["-n", "recover"]):
                ran = subprocess.run([LAB, f"-d{name}", *words], capture_output=True, text=True, cwd=room.path, env=room.environment())
                room.same(f"{words} in {name}", (ran.returncode, ran.stderr), (0, ""))
            shutil.copy(f"{TOP}/demo/ring.ns", f"{path}/{name}")
            ran = subprocess.run([LAB, "-d", name, "create", "--", "-x-", f"{name}/{name}"], capture_output=True, text=True, cwd=room.path, env=room.environment())
            room.same(f"create of {name}", (ran.returncode, ran.stdout), (0, "created -x- 4 4\n"))
        ran = subprocess.run([LAB, "-d", "none\x1b\udcff/x", "status"], capture_output=True, text=True, cwd=room.path, env=room.environment())
        room.same("one line", (ran.returncode, ran.stderr.count("\n"), "\x1b" in ran.stderr), (64, 1, False))
        shutil.copytree(f"{room.path}/a b", f"{room.path}/\udcff")
        shutil.copy(f"{TOP}/demo/ring.ns", f"{room.path}/\udcff/\udcff")
        ran = subprocess.run([LAB, "check", "\udcff/\udcff"], capture_output=True, cwd=room.path, env=room.environment())
        room.same("bytes of a name", (ran.returncode, ran.stdout[:4]), (0, b"\xff/\xff:"))
        room.same("no shell", os.path.exists(f"{room.path}/x"), False)


class Events(Trial):
    """Link events, by windows and as they come due."""

    def setUp(self):
        super().setUp()
        script = read("demo/events.lab").splitlines()
        self.room.run("set", self.room.file("a.ptop", "\n".join(script[2:11]) + "\n"), folder="lab")
        text = "set ns [new Simulator]\nset a [$ns node]\nset b [$ns node]\nset l [$ns duplex-link $a $b 100Mb 2ms DropTail]\n{}$ns run\n"
        self.plain = self.room.file("plain.ns", text.format(""))
        self.file = self.room.file("events.ns", text.format('foreach t "0.1 0.35" {$ns at $t "$l down"}\n$ns at 0.2 "$l up"\n$ns at 7.5 "$l down"\n'))
        self.room.run("create", "A", self.plain, folder="lab")
        self.room.run("in", "A", folder="lab")

    def test_units(self):
        """Windows are told in microseconds, or with a unit."""
        for since, until, number in (("0", "150000", 1), ("0.1s", "350ms", 2), ("7s", "12s", 1), ("1s", "7.5s", 0)):
            ran = self.room.run("play", "A", self.file, since, until, folder="lab")
            self.room.same(f"{since} {until}", (ran.returncode, ran.stdout), (0, f"played A {number}\n"))

    def test_now(self):
        """Each event is waited for; another command comes between; one that can't be played ends it."""
        room, began = self.room, time.monotonic()
        file = room.file("soon.ns", read_file(self.file).replace("7.5", "1.5"))
        ran = room.run("play", "A", file, "now", folder="lab")
        room.same("played", (ran.returncode, ran.stdout, ran.stderr), (0, "played A 1\n" * 4, "  events at 0.1 s, 0.2 s, 0.35 s, 1.5 s\n"))
        room.same("waited", time.monotonic() - began > 1.4, True)
        room.run("out", "A", folder="lab")
        ran = room.run("play", "A", file, "now", folder="lab")
        room.same("one that is out", (ran.returncode, ran.stderr.startswith("lab: is out A: ")), (10, True))
