"""Faults of texts, told by their line and the manual."""
from .rooms import LAB, TOP, Trial


class Texts(Trial):
    """Texts that are refused."""

    def test_faults(self):
        """Where a text is refused its line and the manual's sentence are told; marks of other systems are dropped."""
        room = self.room
        room.run("set", f"{TOP}/demo/rack.ptop", folder="lab")
        text = "\ufeffset ns [new Simulator]\r\nset a [$ns node]\r\nputs hello\r\n$ns run\r\n"
        file = room.file("bad.ns", text)
        ran = room.run("create", "A", file, folder="lab")
        room.same("a fault", (ran.returncode, ran.stdout, ran.stderr), (10, "bad A 3 command\n", f"{file}:3: puts hello\n  command: no such command\n"))
        top, place = room.file("a.top", "node a pc linux\nnode b pc linux\n"), room.file("place", "node a pc1 pc\nnode b pc9 pc\n")
        room.run("create", "A", top, folder="lab")
        ran = room.run("in", "A", place, folder="lab")
        room.same("a name", (ran.returncode, ran.stderr.splitlines()[:1]), (10, [f"{place}:2: node b pc9 pc"]))
        ran = room.run("in", "A", room.file("place", "node a pc1 pc\nnode b pc1 pc\n"), folder="lab")
        room.same("a rule", (ran.stdout, ran.stderr.startswith("  F2: the virtual nodes")), ("infeasible A F2 pc1\n", True))
        room.run("in", "A", room.file("place", "node a pc1 pc\nnode b pc2 pc\n"), folder="lab")
        ran = room.run("modify", "A", top, room.file("place", "node a pc1 pc\nnode b pc9 pc\n"), folder="lab")
        room.same("a second block", (ran.stdout, ran.stderr.splitlines()[:1]), ("bad A 4 unknown\n", [f"{room.path}/place:2: node b pc9 pc"]))
