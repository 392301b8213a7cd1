"""Looks, maps, dumps and the script run."""
import os

from .rooms import LAB, TOP, Trial, read


def shows(room, folder):
    """Gives what `show` tells of each experiment, but for VLAN ids."""
    names = [line.split(" ")[1] for line in room.labctl("status\n", "--dir", folder).stdout.splitlines() if line.startswith("exp ")]
    told = room.labctl("".join(f"show {name}\n" for name in names), "--dir", folder).stdout
    return [line for line in told.splitlines() if not line.startswith("tag ")]


class Looks(Trial):
    """Looks at a folder, and what makes a lab anew."""

    def test_view(self):
        """Looks go to labview with their words, and end with its status; where it stands, it tells the experiments as status does."""
        room = self.room
        fake = room.file("labview", "#!/bin/sh\necho \"$*\"\nexit $CODE\n")
        os.chmod(fake, 0o755)
        os.mkdir(f"{room.path}/lab")
        for words in ([], ["--check"], ["--svg"]):
            for code in (0, 1, 6, 7):
                ran = room.run("view", *words, folder="lab", LABVIEW=fake, CODE=str(code))
                room.same(f"view {words}", (ran.returncode, ran.stdout), (code, " ".join([*words, f"{room.path}/lab\n"])))
        drawn = room.file("drawn", "#!/bin/sh\nprintf '%s\\n' 'vlans 2 4094' 'node s1 switch' 'switch s1 1 of 1 free' 'machine pc1 free'\nexit 1\n")
        os.chmod(drawn, 0o755)
        ran = room.run("map", folder="lab", LABVIEW=drawn)
        room.same("map by labview", (ran.returncode, ran.stdout), (1, "switch s1 1 of 1 free\nmachine pc1 free\n"))
        for words, folder, code in ((["view", "--away"], "lab", 64), (["view", "--svg", "--check"], "lab", 64), (["view"], "none", 73)):
            room.same(f"{words}", room.run(*words, folder=folder, LABVIEW=fake, CODE="0").returncode, code)
        os.rmdir(f"{room.path}/lab")
        real = [f"{TOP}/crates/labview/out/{name}" for name in ("labview", "labview_fast")]
        for labview in [path for path in real if os.access(path, os.X_OK)][:1]:
            room.run("set", f"{TOP}/demo/rack.ptop", folder="lab")
            room.run("create", "ring", f"{TOP}/demo/ring.ns", folder="lab")
            room.run("in", "ring", folder="lab")
            told = room.run("view", folder="lab", LABVIEW=labview).stdout
            wanted = room.run("status", folder="lab").stdout
            room.same("experiments", [line for line in told.splitlines() if line.startswith(("exp ", "free "))], wanted.splitlines())
            ran = room.run("view", "--svg", folder="lab", LABVIEW=labview)
            room.same("a picture", (ran.returncode, ran.stdout.startswith("<svg"), "ring" in ran.stdout), (0, True, True))
            room.same("a check", room.run("view", "--check", folder="lab", LABVIEW=labview).returncode, 0)
            with open(f"{TOP}/docs/lab.svg", encoding="utf-8") as it:
                room.same("the stored picture", room.run(labview, "--svg", f"{TOP}/crates/labview/data").stdout, it.read())

    def test_dump(self):
        """A dump makes the lab anew; a map has each machine with who holds it."""
        room = self.room
        room.run("set", f"{TOP}/demo/rack.ptop", folder="lab")
        for name, file in (("ring", "demo/ring.ns"), ("two", "tools/networks/two.ns"), ("out", "tools/networks/lan.ns")):
            room.run("create", name, f"{TOP}/{file}", folder="lab")
        for name in ("ring", "two"):
            room.same(f"in {name}", room.run("in", name, folder="lab").returncode, 0)
        script = room.run("dump", folder="lab").stdout
        room.same("a dump runs", room.labctl(script, "--dir", f"{room.path}/again").returncode, 0)
        room.same("a dump", shows(room, f"{room.path}/again"), shows(room, f"{room.path}/lab"))
        told = room.run("map", folder="lab").stdout
        held = [line for line in told.splitlines() if "ring" in line or "two" in line]
        room.same("a map", len(held) >= 6 and "pc1" in told, True)

    def test_run(self):
        """run takes standard input and generated runs, and tells what it can't."""
        room = self.room
        top = f"{TOP}/run"
        script, folder = read("demo/lab.lab"), f"{room.path}/lab"
        wanted = room.labctl(script).stdout
        for words in (["-"], ["--dir", folder, "-"], [f"--dir={folder}2", f"{TOP}/demo/lab.lab"], ["--cost", "pack", f"{TOP}/demo/lab.lab"]):
            ran = room.run(top, *words, stdin=script)
            room.same(f"run {words}", (ran.returncode, ran.stdout), (0, wanted))
        room.same("run --gen", room.run(top, "--gen", "1").stdout, room.labctl("", "--gen", "1").stdout)
        room.same("run --help", room.run(top, "--help").returncode, 0)
        room.same("run --which", room.run(top, "--which").returncode, 0)
        cases = [([], 64), (["none"], 64), (["a", "b"], 64), (["--dir", f"{room.path}/none/lab", "-"], 73), (["--away", "-"], 3),
                 (["--dir", room.file("plain", ""), "-"], 73)]
        for words, code in cases:
            room.same(f"run {words}", room.run(top, *words).returncode, code)
        ns, ptop = f"{TOP}/demo/ring.ns", f"{TOP}/demo/rack.ptop"
        for file, told in ((ns, f"{ns} is an NS file, and no script: set a lab by tools/lab set FILE.ptop, then tools/lab create E {ns}"),
                           (ptop, f"{ptop} is the text of a lab, and no script: tools/lab set {ptop}")):
            ran = room.run(top, file)
            room.same(f"run {file}", (ran.returncode, ran.stdout, ran.stderr), (64, "", f"run: {told}\n"))
