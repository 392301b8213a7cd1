"""The word grow: its refusals, and a lab over another text."""
import os

from .rooms import TOP, Trial, read

GROWS = [f"{TOP}/crates/labgrow/out/{name}" for name in ("labgrow", "labgrow_fast")]


class Grow(Trial):
    """A lab over another text."""

    def set(self):
        """Sets a lab with an experiment that is in."""
        room = self.room
        room.run("set", f"{TOP}/demo/rack.ptop", folder="lab")
        room.run("create", "ring", f"{TOP}/demo/ring.ns", folder="lab")
        room.run("in", "ring", folder="lab")

    def test_grow_refusals(self):
        """What is refused before anything is made, and what labgrow itself tells."""
        room = self.room
        self.set()
        text = f"{TOP}/demo/rack.ptop"
        fake = room.program_file("labgrow", "echo refused ring moves\nexit 10\n")
        room.refused(["grow", f"{room.path}/away", f"{room.path}/to"], 73, f"{room.path}/away can't be read")
        room.refused(["grow", text, f"{room.path}/lab"], 73, f"{room.path}/lab is there; name a folder that is new")
        room.refused(["grow", text, f"{room.path}/none/to"], 73, f"{room.path}/none, where {room.path}/none/to would be, can't be written")
        ran = room.run("grow", text, f"{room.path}/to", folder="lab", LABGROW=fake)
        room.same("a refusal", (ran.returncode, ran.stdout), (10, "refused ring moves\n"))
        with open(f"{room.path}/lab/tables", "a", encoding="utf-8") as it:
            it.write("row s1 40 118\n")
        ran = room.run("grow", text, f"{room.path}/to", folder="lab", LABGROW=fake)
        room.same("devices that differ", (ran.returncode, os.path.exists(f"{room.path}/to")), (10, False))

    def test_grow_again(self):
        """A new folder that doesn't audit to nothing is taken away."""
        room = self.room
        self.set()
        made = f"mkdir $3\ncp $1/journal.a $3\necho row s1 40 118 > $3/tables\necho grown 1\n"
        fake = room.program_file("labgrow", made)
        ran = room.run("grow", f"{TOP}/demo/rack.ptop", f"{room.path}/to", folder="lab", LABGROW=fake)
        room.same("taken away", (ran.returncode, os.path.exists(f"{room.path}/to")), (12, False))

    def test_grow(self):
        """A lab grows by a machine, and its experiment is as it was; it works where labgrow stands."""
        room = self.room
        self.set()
        for labgrow in [path for path in GROWS if os.access(path, os.X_OK)][:1]:
            text = room.file("more.ptop", read("demo/rack.ptop") + "node more pc:1\n")
            ran = room.run("grow", text, f"{room.path}/to", folder="lab", LABGROW=labgrow)
            room.same("grown", (ran.returncode, ran.stdout), (0, "grown 1\n"))
            before = room.run("show", "ring", folder="lab").stdout
            room.same("as it was", room.run("show", "ring", folder="to").stdout, before)
            room.same("a machine more", "more" in room.run("map", folder="to").stdout, True)
            room.same("out", room.run("out", "ring", folder="to").returncode, 0)
