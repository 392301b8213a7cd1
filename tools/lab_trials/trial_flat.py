"""NS files as people write them: `lab flat`, `lab create --tcl` and `lab check`."""
import os
import re
import resource
import shutil
import subprocess
import sys
import time
import unittest

from .rooms import LAB, TOP, Trial, block, read

FILES = sorted(os.listdir(f"{TOP}/tools/emulab"))
NETWORKS = sorted(os.listdir(f"{TOP}/tools/networks"))
BEFORE = ("set ns [new Simulator]\nset a [$ns node]\nset b [$ns node]\nset i 0\nset l [$ns duplex-link $a $b 100Mb 0ms DropTail]\n"
          "set s [$ns duplex-link $a $b 10Mb 20ms DropTail]\n")
# What a top text holds of a file, and a flat text doesn't.
HELD = r"add-desire|hard-vtype|weighted-vtype|-simplex-params|tb-set-node-lan-|set back .*simplex-link"


def section(heading, behind):
    """Gives a part of the manual, by its heading and the one behind it."""
    return read("docs/MANUAL.md").partition(f"\n{heading}\n")[2].partition(f"\n{behind}\n")[0]


def told_of(ran):
    """Gives what is told of lines: (line, word), with 0 for the whole file."""
    lines = ran.stderr.splitlines()
    told = set()
    for head, what in zip(lines, lines[1:]):
        if re.match(r"  [\w -]+: ", what):
            found = re.match(r".*?\.ns:(\d+):", head)
            told.add((int(found[1]) if found else 0, what.strip().partition(":")[0].replace("left out", "left")))
    return told


def marked(text):
    """Gives the lines of a file that are marked, with their marks, as a trial wants them told."""
    lines = text.splitlines()
    return {(number, found[1]) for number, line in enumerate(lines, 1) if (found := re.search(r"# (left|changed|bandwidth|delay|link)$", line))}


@unittest.skipUnless(shutil.which("tclsh"), "there is no tclsh")
class Flat(Trial):
    """NS files by a real Tcl."""

    def shown(self, text):
        """Gives what `show` tells of an NS text."""
        text = text.removeprefix("\ufeff").replace("\r", "")
        script = block("ptop", "node s1 switch\n") + block("create x", text) + "show x\n"
        return self.room.labctl(script).stdout.partition("\n")[2]

    def test_networks(self):
        """Where a file runs as it is, its flat text makes the same network to the byte, and nothing is left out."""
        for file in [*(f"tools/networks/{name}" for name in NETWORKS), "demo/ring.ns"]:
            ran = self.room.run(LAB, "flat", f"{TOP}/{file}")
            self.room.same(file, (ran.returncode, ran.stderr), (0, ""))
            self.room.same(f"{file}: its network", self.shown(ran.stdout), self.shown(read(file)))
            self.room.same(f"{file}: twice", self.room.run(LAB, "flat", "-", stdin=ran.stdout).stdout, ran.stdout)

    def test_names(self):
        """Names that no variable gives, and names that two things share, are the same in the flat text."""
        node = "set ns [new Simulator]\nset a [$ns node]\n"
        for text in (
            "lappend nodes [$ns node]\nlappend nodes [$ns node]\nlappend nodes [$ns node]\n$ns make-lan $nodes 10Mb 0ms\n",
            "tb-set-link-loss [$ns duplex-link $a [$ns node] 10Mb 5ms DropTail] 0.25\n",
            "$ns duplex-link [$ns node] [$ns node] 10Mb 5ms DropTail\n$ns node\n",
            "set b [$ns node]\nset b [$ns duplex-link $a $b 10Mb 0ms DropTail]\ntb-set-link-loss $b 0.5\n",
            "foreach n \"[$ns node]\" {tb-set-node-os $n linux}\n",
            "set last $a\nset b [$ns node]\nset last $b\n$ns make-lan \"$a $last\" 1Gb 2ms\n",
            "append x [$ns node]\ntb-set-hardware $x fast\n",
        ):
            ran = self.room.run(LAB, "flat", self.room.file("text.ns", f"{node}{text}$ns run\n"))
            self.room.same(text, (ran.returncode, ran.stderr), (0, ""))
            self.room.same(f"{text}: its network", self.shown(ran.stdout), self.shown(f"{node}{text}$ns run\n"))

    def test_emulab(self):
        """Files as Emulab's users write them run, or are told by line; their first lines and their marks say what is wanted."""
        self.room.same("their number", len(FILES) >= 30, True)
        for name in FILES:
            text = read(f"tools/emulab/{name}")
            ran = self.room.run(LAB, "flat", f"{TOP}/tools/emulab/{name}")
            wanted = text.partition("\n")[0].removeprefix("#: ").split(" ")
            if wanted[0] == "made":
                self.room.same(name, (ran.returncode, told_of(ran)), (0, marked(text)))
                self.room.same(f"{name} is made", self.shown(ran.stdout).partition("\n")[0], " ".join(["created x", *wanted[1:]]))
            elif wanted[0] == "faulty":
                self.room.same(name, (ran.returncode, ran.stdout, told_of(ran)), (10, "", marked(text)))
            else:
                self.room.same(name, (ran.returncode, ran.stdout, told_of(ran)), (10, "", {(int(wanted[2]), wanted[1])}))

    def test_rows(self):
        """Each row of the manual's tables of flat texts and of top texts is as it says."""
        for heading, behind, option in (("### Flat", "### By a top text", []), ("### By a top text", "## What to do when", ["--top"])):
            rows = re.findall(r"^\| `(.*?)` \| (.*?) \|$", section(heading, behind), re.M)
            self.room.same(f"{heading}: rows", len(rows) > 9, True)
            for line, cell in rows:
                ran = self.room.run(LAB, "flat", *option, self.room.file("text.ns", f"{BEFORE}{line}\n$ns run\n"))
                code = re.match(r"`(.*?)`", cell)
                self.room.same(line, ran.returncode, 0)
                if code:
                    self.room.same(line, (code[1] if code[1] in ran.stdout.splitlines() else ran.stdout), code[1])
                else:
                    self.room.same(line, "left out: " in ran.stderr and cell.removeprefix("nothing: ").replace("`l`", "this link") in ran.stderr, True)

    def test_top(self):
        """A top text is taken, and what it holds is told of the flat text alone."""
        for name in ("asymmetric", "lan-members", "wishes", "simplex", "link-events", "overlay"):
            file = f"{TOP}/tools/emulab/{name}.ns"
            top, flat = self.room.run(LAB, "flat", "--top", file), self.room.run(LAB, "flat", file)
            made = self.room.labctl(block("ptop", "node s1 switch\n") + block("create-top x", top.stdout)).stdout.splitlines()[-1]
            self.room.same(name, (top.returncode, made), (0, self.shown(flat.stdout).partition("\n")[0]))
            lines = list(enumerate(read(f"tools/emulab/{name}.ns").splitlines(), 1))
            events = {(number, what) for number, line in lines if "$ns at" in line for what in ("left", "changed")}
            held = {(number, what) for number, line in lines if re.search(HELD, line) for what in ("left", "changed")}
            self.room.same(f"{name}: told", told_of(top) - events, told_of(flat) - events - held)
            self.room.same(f"{name}: events", {it for it in told_of(top) if it in events}, {it for it in events if it[1] == "left"})

    def test_created(self):
        """`create --tcl` makes the experiment of the flat text, tells what is left out, and keeps the text; a refusal keeps nothing."""
        room, file = self.room, f"{TOP}/tools/emulab/link-events.ns"
        room.run("set", f"{TOP}/demo/rack.ptop", folder="lab")
        flat = room.run(LAB, "flat", file)
        dry = room.run("-n", "create", "A", "--tcl", file, folder="lab")
        room.same("a dry run", (dry.returncode, dry.stdout), (0, "created A 5 4\nwould change nothing\n"))
        room.same("and its text", os.path.exists(f"{room.path}/lab/A.ns"), False)
        ran = room.run("create", "A", "--tcl", file, folder="lab")
        room.same("create --tcl", (ran.returncode, ran.stdout, ran.stderr), (0, "created A 5 4\n", flat.stderr))
        with open(f"{room.path}/lab/A.ns", encoding="utf-8") as it:
            room.same("the text is kept", it.read(), flat.stdout)
        room.same("in", room.run("in", "A", folder="lab").stdout, "in A\n")
        played = room.run("play", "A", f"{room.path}/lab/A.ns", "0", "700000000", folder="lab")
        room.same("its events are played", (played.returncode, played.stdout), (0, "played A 9\n"))
        again = room.run("create", "--tcl", "A", file, folder="lab")
        room.same("a second one", (again.returncode, again.stdout), (10, "exists A\n"))
        for name in ("mistaken", "forgotten", "ns2"):
            before = sorted(os.listdir(f"{room.path}/lab"))
            ran = room.run("create", "B", "--tcl", f"{TOP}/tools/emulab/{name}.ns", folder="lab")
            room.same(name, (ran.returncode, ran.stdout, sorted(os.listdir(f"{room.path}/lab"))), (10, "", before))

    def test_without(self):
        """Where there is no tclsh, or no such file, that is told."""
        file = f"{TOP}/tools/networks/two.ns"
        ran = subprocess.run([sys.executable, LAB, "flat", file], capture_output=True, encoding="utf-8",
                             env=self.room.environment(PATH=self.room.path))
        self.room.same("no tclsh", (ran.returncode, ran.stdout, "there is no tclsh" in ran.stderr), (64, "", True))
        ran = self.room.run(LAB, "flat", f"{self.room.path}/none.ns")
        self.room.same("no file", (ran.returncode, ran.stdout), (64, ""))


# Hostile texts, each with the kind of its refusal.
HOSTILE = {
    "while 1 {}": "time commands", "for {} {1} {} {set x 1}": "time commands", "while 1 {catch {error x}}": "time commands",
    "proc f {} {f}\nf": "tcl", "proc f {} {catch {f}; f}\nf": "tcl time commands",
    "set x [string repeat a 2000000000]": "memory tcl", "set x aaaaaaaa; while 1 {append x $x}": "memory tcl",
    "set x {}; while 1 {lappend x [string repeat b 100000]}": "memory time", "while 1 {set v([incr k]) $k}": "memory time commands",
    "while 1 {tb-set-ip $ns x}": "calls time", "tb-set-ip [string repeat a 5000000]": "bytes", "while 1 {puts [incr k]}": "time commands",
    "regexp {^(a+)+(b+)+(c*)*\\1$} [string repeat a 5000]b": "time memory tcl end",
    "exec touch FILE": "refused", "catch {exec touch FILE}": "refused", "eval exec touch FILE": "refused", "[format exec] touch FILE": "refused",
    "open FILE w": "refused", "open |touch\\ FILE": "refused", "source FILE": "refused", "source /etc/passwd": "refused",
    "socket localhost 80": "refused", "file delete FILE": "refused", "file mkdir FILE": "refused", "glob *": "refused", "cd /": "refused",
    "interp create x": "refused", "after 100000": "refused", "after 0 {exec ls}": "refused", "vwait forever": "refused", "update": "refused",
    "load libc.so.6": "refused", "exit": "refused", "exit 0": "refused", "pid": "refused", "fconfigure stdout": "refused", "chan pipe": "refused",
    "read stdin": "refused", "gets stdin": "refused", "trace add execution set enter x": "refused", "thread::create": "tcl",
    "rename set x": "anew", "rename exec run": "anew", "rename puts {}": "anew", "proc set args {}": "anew", "proc ::unknown args {}": "anew",
    "proc exec args {}": "anew", "namespace eval :: {proc source x {}}": "anew", "catch {rename proc x}": "anew",
    "namespace delete ::": "tcl end refused", "namespace delete ::tcl": "tcl end refused run", "package require Tk": "tcl",
    "error \"\\033\\]0;title\\007\\x00\"": "tcl", "uplevel #0 {exec touch FILE}": "refused", "[set c exec] touch FILE": "refused",
    "::tcl::file::delete FILE": "tcl", "::tcl::chan::open FILE": "tcl refused", "auto_execok ls": "tcl", "tclPkgUnknown a": "tcl",
    "::safe::interpCreate": "tcl", "interp invokehidden {} exec touch FILE": "refused", "info frame 0; exec touch FILE": "refused",
    "if 1 [list exec touch FILE]": "refused", "apply {{} {exec touch FILE}}": "refused", "subst {[exec touch FILE]}": "refused",
    "lsort -command exec {a b}": "refused", "coroutine c exec touch FILE": "refused", "try {exec touch FILE} finally {set x 1}": "refused",
    "time {exec touch FILE} 3": "refused", "namespace eval x {exec touch FILE}": "refused", "trace": "refused", "encoding system": "refused",
    "new": "tcl end", "$ns": "tcl", "$ns duplex-link": "tcl", "$ns make-lan": "run end", "tb-set-node-os": "arity",
    "set y " + "[" * 30000: "tcl deep", "set y " + "{" * 30000: "tcl deep", "expr " + "(" * 30000: "tcl deep memory",
}


@unittest.skipUnless(shutil.which("tclsh"), "there is no tclsh")
class Hostile(Trial):
    """Files that mean no good end in a named refusal, in bounded time and memory, and touch nothing."""

    def test_hostile(self):
        """Each text is refused with a kind of its own, and makes no file."""
        target = f"{self.room.path}/target"
        for text, kinds in HOSTILE.items():
            text = text.replace("FILE", target)
            file = self.room.file("text.ns", f"set ns [new Simulator]\n{text}\n")
            before, began = sorted(os.listdir(self.room.path)), time.monotonic()
            ran = self.room.run(LAB, "flat", file, stdin="")
            what = text[:70]
            told = {it for _, it in told_of(ran)}
            self.room.same(f"{what}: its status", (ran.returncode, ran.stdout), (10, ""))
            self.room.same(f"{what}: its kind", told and told <= set(kinds.split(" ")) | {"left", "changed", "end"}, True)
            self.room.same(f"{what}: its time", time.monotonic() - began < 60, True)
            self.room.same(f"{what}: what it touched", (sorted(os.listdir(self.room.path)), os.path.exists(target)), (before, False))
            self.room.same(f"{what}: odd signs", [sign for sign in ran.stderr if not (sign.isprintable() or sign == "\n")], [])
        self.room.same("the memory of all", resource.getrusage(resource.RUSAGE_CHILDREN).ru_maxrss < 400 * 1024, True)

    def test_bytes(self):
        """Bytes of any kind are read, and told without signs that a terminal obeys."""
        for text in (bytes(range(256)), b"\xff\xfe\x00" * 100, b"set ns [new Simulator]\nputs \"\x1b]0;x\x07\x9b31m\"\n$ns run\n",
                     b"tb-\x1b[31m \xc3\x28\n", b"\x1a" * 50, b"{" * 1000, b"\\\n" * 1000, b"\x00"):
            with open(f"{self.room.path}/text.ns", "wb") as it:
                it.write(text)
            ran = self.room.run(LAB, "flat", f"{self.room.path}/text.ns")
            self.room.same(f"{text[:20]}", (ran.returncode, ran.stdout), (10, ""))
            self.room.same(f"{text[:20]}: odd signs", [sign for sign in ran.stderr if not (sign.isprintable() or sign == "\n")], [])
        with open(f"{self.room.path}/text.ns", "wb") as it:
            it.write(b"#" * (2 ** 20 + 1))
        ran = self.room.run(LAB, "flat", f"{self.room.path}/text.ns")
        self.room.same("a long one", (ran.returncode, told_of(ran)), (10, {(0, "long")}))


class Checks(Trial):
    """`lab check`."""

    def check(self, lines):
        return self.room.run(LAB, "check", self.room.file("bad.ns", "\n".join([*lines, "$ns run"]) + "\n"))

    def test_check(self):
        """All refused lines of an NS file are told, and a file without one by what it makes; what follows from a refused line isn't."""
        room = self.room
        lines = ["set ns [new Simulator]", "puts hello", "set a [$ns node]", "proc twice {x} {", "    expr $x * 2", "}", "set b [$ns node]",
                 'tb-set-node-startcmd $a "go"', "set l [$ns duplex-link $a $b 100Mb 2ms RED]", "tb-set-link-loss $l 0.1", "set y [twice 3]",
                 "set z $y", "tb-set-node-os $c linux", "tb-set-node-os $a"]
        ran = self.check(lines)
        sentence = "a command, an option or a value of Emulab that this program doesn't have"
        wanted = [
            "2: puts hello", "  command: no such command", "  From Emulab: nothing: it prints nothing here",
            "4: proc twice {x} {", "  command: no such command", "  From Emulab: write the body where it is called, or a loop",
            "  what stands in its body isn't tried",
            '8: tb-set-node-startcmd $a "go"', f"  unsupported: {sentence}", "  From Emulab: nothing: start it once the experiment is in",
            "9: set l [$ns duplex-link $a $b 100Mb 2ms RED]", f"  unsupported: {sentence}",
            "  the form: $ns duplex-link A B BW DELAY DropTail", "  From Emulab: write set m [$ns duplex-link $a $b 100Mb 5ms DropTail]",
            "13: tb-set-node-os $c linux", "  variable: a variable that isn't set: c",
            "14: tb-set-node-os $a", "  arity: a wrong number of words, or another word of `if` than `elseif` and `else`",
            "  the form: tb-set-node-os NODE OS",
        ]
        room.same("refused lines", (ran.returncode, [line.replace(f"{room.path}/bad.ns:", "") for line in ran.stdout.splitlines()]), (10, wanted))
        room.same("a way out", ran.stderr, f"lab flat {room.path}/bad.ns takes all of Tcl, and tells what it leaves out\n")
        loop = self.check(["set ns [new Simulator]", "for {set i 0} {$i < 3} {incr i} {", "puts $i", "}"])
        room.same("a loop", (loop.returncode, len(loop.stdout.splitlines())), (10, 3))
        right = room.run(LAB, "check", f"{TOP}/demo/ring.ns")
        room.same("a right one", (right.returncode, right.stdout), (0, f"{TOP}/demo/ring.ns: 4 virtual nodes, 4 segments\n"))
        room.same("none", room.run(LAB, "check", "none.ns").returncode, 64)

    def test_open(self):
        """A quote that isn't closed is told alone."""
        ran = self.check(["set ns [new Simulator]", 'set x "one'])
        self.room.same("an open quote", (ran.returncode, ran.stdout.splitlines()[1][:8]), (10, "  quote:"))

    def test_cures(self):
        """Each row of the manual's first table is quoted for its line."""
        rows = re.findall(r"^\| `(.*?)` \(`([\w-]+)`\) \| (.*) \|$", section("## From Emulab", "### Flat"), re.M)
        self.room.same("rows", len(rows) > 50, True)
        for line, kind, cell in rows:
            ran = self.check([*BEFORE.splitlines(), line])
            told = "From Emulab: " + ("" if cell.startswith("nothing") else "write ") + cell.replace("`", "")
            self.room.same(line, (ran.returncode, f"  {kind}:" in ran.stdout, told in ran.stdout and told), (10, True, told))
