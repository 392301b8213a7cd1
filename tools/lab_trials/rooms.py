"""A folder for the files of a trial, and the programs that it runs."""
import functools
import os
import shutil
import subprocess
import tempfile
import unittest

TOP = os.path.dirname(os.path.dirname(os.path.dirname(os.path.abspath(__file__))))
LAB = f"{TOP}/tools/lab"
# The seconds that a run may take. Each takes less than one, but that of `./run` may have to build.
LIMIT = 900
DEMOS = sorted(name.removesuffix(".lab") for name in os.listdir(f"{TOP}/demo") if name.endswith(".lab"))
# How the trials are run: the program labctl, labview where it stands, and how many kills a trial of the server makes.
GIVEN = {"labctl": None, "labview": None, "kills": 20}


@functools.cache
def in_memory():
    """Gives a folder in memory, since each reply over one on a disk waits for it; nothing where none has room and runs programs."""
    try:
        with tempfile.TemporaryDirectory(dir="/dev/shm") as room:
            with open(f"{room}/true", "w", encoding="utf-8") as it:
                it.write("#!/bin/sh\n")
            os.chmod(f"{room}/true", 0o755)
            subprocess.run([f"{room}/true"], check=True)
            left = os.statvfs(room)
            return "/dev/shm" if left.f_bavail * left.f_frsize >= 32 * 2 ** 20 else None
    except OSError:
        return None


class Room:
    """A folder for the files of a trial, and what runs there."""

    def __init__(self, trial):
        self.trial = trial
        self.program = GIVEN["labctl"]
        self.path = tempfile.mkdtemp(prefix="try_lab-", dir=in_memory())

    def file(self, name, text):
        with open(f"{self.path}/{name}", "w", encoding="utf-8") as it:
            it.write(text)
        return f"{self.path}/{name}"

    def program_file(self, name, text):
        """Makes a program of a text of sh."""
        path = self.file(name, f"#!/bin/sh\n{text}")
        os.chmod(path, 0o755)
        return path

    def environment(self, **others):
        named = {"LABCTL": self.program, **({"LABVIEW": GIVEN["labview"]} if GIVEN["labview"] else {})}
        return {**os.environ, **named, **others}

    def run(self, *words, stdin="", folder=None, **environment):
        """Runs lab over a folder of the room, or other words."""
        words = [LAB, "-d", f"{self.path}/{folder}", *words] if folder else words
        return subprocess.run(words, input=stdin, capture_output=True, encoding="utf-8", env=self.environment(**environment), timeout=LIMIT)

    def bare(self, *words, folder):
        """Runs a lab that has no labview beside it."""
        place = f"{self.path}/bare"
        if not os.path.isdir(place):
            shutil.copytree(f"{TOP}/tools/labcli", f"{place}/labcli", ignore=shutil.ignore_patterns("__pycache__"))
            shutil.copy(LAB, place)
        environment = {name: value for name, value in self.environment(PATH="/usr/bin:/bin").items() if name != "LABVIEW"}
        words = [f"{place}/lab", "-d", f"{self.path}/{folder}", *words]
        return subprocess.run(words, capture_output=True, encoding="utf-8", env=environment, timeout=LIMIT)

    def labctl(self, script, *words):
        return subprocess.run([self.program, *words], input=script, capture_output=True, encoding="utf-8", timeout=LIMIT)

    def same(self, what, told, wanted):
        """Tells where something isn't as wanted; the trial goes on."""
        with self.trial.subTest(what):
            self.trial.assertEqual(told, wanted)

    def refused(self, words, code, told, folder="lab", run=None):
        """Tries words that are refused, with this status and this one line on standard error."""
        ran = (run or self.run)(*words, folder=folder)
        self.same(f"lab {words}", (ran.returncode, ran.stdout, ran.stderr), (code, "", f"lab: {told}\n"))

    def tables(self, folder):
        try:
            with open(f"{self.path}/{folder}/tables", encoding="utf-8") as it:
                return set(it.read().splitlines())
        except FileNotFoundError:
            return set()


class Trial(unittest.TestCase):
    """A trial with a room of its own, which is gone behind it."""

    maxDiff = 4000

    def setUp(self):
        self.room = Room(self)
        self.addCleanup(shutil.rmtree, self.room.path, ignore_errors=True)


def read(path):
    with open(f"{TOP}/{path}", encoding="utf-8") as it:
        return it.read()


def block(command, text):
    """Gives a command with its block."""
    return f"{command} {text.count(chr(10))}\n{text}"


def commands_of(script):
    """Gives the commands of a script, each with its words and its blocks."""
    lines, commands = script.splitlines(), []
    while lines:
        words = lines.pop(0).split()
        if not words or words[0].startswith("#"):
            continue
        head = words[1:] if words[0] == "open" else words
        counts = {"ptop": [1], "create": [2], "create-top": [2], "swapin-with": [2], "modify": [3], "modify-with": [2, 3],
                  "play": [4], "batch": [2]}.get(head[0], [])
        blocks = []
        for at in counts:
            count = int(head[at])
            blocks.append("".join(f"{line}\n" for line in lines[:count]))
            del lines[:count]
        commands.append((words, blocks))
    return commands


def words_of(room, words, blocks):
    """Gives the words of lab for a command of a script."""
    if words[0] == "ptop":
        return ["set", room.file("text.ptop", blocks[0])]
    if words[0] in ("create", "create-top"):
        return ["create", words[1], room.file("text.top" if words[0] == "create-top" else "text.ns", blocks[0])]
    if words[0] == "swapin-with":
        return ["in", words[1], room.file("place", blocks[0])]
    if words[0] == "modify":
        return ["modify", words[1], room.file("text.ns", blocks[0]), words[2]]
    if words[0] == "modify-with":
        return ["modify", words[1], room.file("text.top", blocks[0]), room.file("place", blocks[1])]
    if words[0] == "play":
        return ["play", words[1], room.file("text.ns", blocks[0]), *words[2:4]]
    if words[0] == "batch":
        return ["batch", words[1], room.file("text.batch", blocks[0])]
    return [{"swapin": "in", "swapout": "out"}.get(words[0], words[0]), *words[1:]]
