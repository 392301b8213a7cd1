"""Folders and their lock, wrong words, and what is told on the way."""
import fcntl
import os

from .rooms import LAB, TOP, Trial


class Folders(Trial):
    """Folders, words and turns."""

    def test_progress(self):
        """With -v a swap tells its turns on standard error, and the same reply."""
        room = self.room
        room.run("set", f"{TOP}/demo/rack.ptop", folder="lab")
        room.run("create", "ring", f"{TOP}/demo/ring.ns", folder="lab")
        for words in (["in", "ring"], ["modify", "ring", f"{TOP}/tools/networks/two.ns"], ["out", "ring"]):
            ran = room.run("-v", *words, folder="lab")
            wanted = "out ring\n" if words[0] == "out" else "in ring\n"
            room.same(f"-v {words[0]}", (ran.returncode, ran.stdout), (0, wanted))
            lines = ran.stderr.splitlines()
            number = len(lines)
            counted = [f"ring: open, {number} turns"] + [f"ring: turn {n} of {number}" for n in range(1, number)]
            room.same(f"-v {words[0]} counts", (lines, len(lines) > 4), (counted, True))
        ran = room.run("-v", "in", "nobody", folder="lab")
        room.same("-v of nobody", (ran.returncode, ran.stdout, ran.stderr), (10, "unknown nobody\n", ""))

    def test_folders(self):
        """A folder is looked at first, and serves one program at a time."""
        room = self.room
        room.file("plain", "")
        for folder, code in (("none/lab", 73), ("plain", 73), ("new", 10)):
            room.same(f"status in {folder}", room.run("status", folder=folder).returncode, code)
            room.same(f"{folder} is made", os.path.isdir(f"{room.path}/{folder}"), False)
        for words in (["show"], ["in", "A", "1", "2"], ["away"], ["-x"], ["create", "A", "none.ns"], ["-n", "-v", "in", "A"], ["run", "none"]):
            room.same(f"lab {words}", room.run(LAB, *words).returncode, 64)
        room.run("set", f"{TOP}/demo/rack.ptop", folder="lab")
        lock = os.open(f"{room.path}/lab", os.O_RDONLY)
        fcntl.flock(lock, fcntl.LOCK_EX)
        for words in (["status"], ["-n", "status"], ["run", "-"]):
            room.same(f"lab {words} beside another", room.run(*words, folder="lab").returncode, 75)
        room.same("run beside another", room.run(f"{TOP}/run", "--dir", f"{room.path}/lab", "-").returncode, 75)
        os.close(lock)
        room.same("and then", room.run("status", folder="lab").stdout, "free 8 50\n")

    def test_words(self):
        """Wrong words are told by what is wanted in their place, and touch no folder."""
        room = self.room
        for words, wanted in (
            (["away"], "no such command: away; see lab --help"), (["swapin", "A"], "no such command: swapin; here it is lab in"),
            (["create", "A"], "usage: lab create E FILE, or lab create E --tcl FILE"), (["in"], "usage: lab in E [SEED], or lab in E PLACE"),
            (["create", "a/b", "none.ns"], "a/b is no name: 1 to 32 letters, digits, -, _ and ."),
            (["play", "A", "none.ns", "0", "soon"], "soon is no time: microseconds from 0 to 1000000000000, or as 12s, 1.5s or 300ms"),
            (["batch", "1000000000001", "none"], "1000000000001 is no time: a number from 0 to 1000000000000"),
            (["-d"], "-d wants a folder behind it"), (["modify", "A", "a.top"], "usage: lab modify E FILE [SEED], or lab modify E FILE.top PLACE"),
        ):
            ran = room.run(LAB, *words)
            room.same(f"lab {words}", (ran.returncode, ran.stdout, ran.stderr), (64, "", f"lab: {wanted}\n"))
        for words in (["-h"], ["--help"], ["help"], ["-d", "none", "--help"]):
            room.same(f"lab {words}", room.run(LAB, *words).stdout.partition("\n")[0], "A lab in a folder, by words at a shell, over the program labctl.")
