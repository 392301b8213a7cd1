"""Several clients of one server: swaps side by side, commands between them, and kills."""
import json
import os
import random
import signal
import socket
import stat
import subprocess
import threading
import time

from .rooms import GIVEN, LAB, TOP, Trial

PAIR = "node a pc linux\nnode b pc linux\nlink ab ab 1000 a b\n"
CLIENTS = 6


def lab_of_pairs():
    """Gives a lab with a switch and two machines for each client."""
    lines = ["vlans 100 199", "node s1 switch"] + [f"node pc{n} pc:1" for n in range(2 * CLIENTS)]
    return "\n".join(lines + [f"link l{n} pc{n}:eth0 s1:{n + 1} 1000000" for n in range(2 * CLIENTS)]) + "\n"


def asked(path, script, turned=lambda: None):
    """Asks a server by its socket, and gives the replies; nothing where it ended before them. Each turn calls `turned`."""
    told = []
    try:
        with socket.socket(socket.AF_UNIX) as it, it.makefile("rwb") as lines:
            it.connect(f"{path}/socket")
            lines.write(json.dumps({"length": len(script), "words": ["trial"]}).encode() + b"\n" + script)
            lines.flush()
            for line in map(json.loads, lines):
                told += [line["line"]] if "line" in line else []
                if "turn" in line:
                    turned()
                if "status" in line:
                    return told
    except (OSError, ValueError):
        pass
    return None


class Served:
    """A server over a folder of a room."""

    def __init__(self, room, *words):
        self.room, self.path = room, f"{room.path}/lab"
        self.process = subprocess.Popen([LAB, "-d", self.path, "serve", *words], stderr=subprocess.PIPE, encoding="utf-8", env=room.environment(),
                                        start_new_session=True)
        self.told = self.process.stderr.readline()

    def end(self, number=signal.SIGTERM):
        """Ends the server, and all that it has begun where it is killed."""
        if number == signal.SIGKILL:
            os.killpg(self.process.pid, number)
        else:
            self.process.send_signal(number)
        self.process.stderr.close()
        return self.process.wait(60)


class Server(Trial):
    """A folder that is served."""

    def setUp(self):
        super().setUp()
        self.room.run("set", self.room.file("a.ptop", lab_of_pairs()), folder="lab")
        self.room.file("a.top", PAIR)
        self.room.same("mode of the room", os.path.isdir(f"{self.room.path}/lab"), True)

    def create(self, names):
        for name in names:
            ran = self.room.run("create", name, f"{self.room.path}/a.top", folder="lab")
            self.room.same(f"create {name}", ran.stdout, f"created {name} 2 1\n")

    def test_served(self):
        """All words go by the server, which tells who asked; what it can't do is refused, and it ends with nothing left behind."""
        room, server = self.room, Served(self.room)
        room.same("it tells", server.told.startswith("lab serve: "), True)
        mode = os.stat(f"{server.path}/socket").st_mode
        room.same("its socket", (stat.S_ISSOCK(mode), stat.S_IMODE(mode)), (True, 0o600))
        self.create(["A", "B"])
        ran = room.run("-v", "in", "A", folder="lab")
        room.same("in", (ran.returncode, ran.stdout, ran.stderr.splitlines()[:2]), (0, "in A\n", ["A: open, 11 turns", "A: turn 1 of 11"]))
        for words, told in ((["status"], "exp A in 2 1\nexp B out 0 0\nfree 10 99\n"), (["audit"], "audit 0\n"), (["recover"], "recovered 0 0\n")):
            room.same(f"{words}", room.run(*words, folder="lab").stdout, told)
        room.same("a dry run", room.run("-n", "out", "A", folder="lab").stdout.splitlines()[:2], ["out A", "would change"])
        room.same("and then", room.run("status", folder="lab").stdout.splitlines()[0], "exp A in 2 1")
        room.same("a script", room.run("run", "-", stdin="status\nswapout A\n", folder="lab").stdout, "exp A in 2 1\nexp B out 0 0\nfree 10 99\nout A\n")
        room.same("a refusal", (lambda it: (it.returncode, it.stdout))(room.run("delete", "C", folder="lab")), (10, "unknown C\n"))
        room.refused(["serve"], 75, f"{server.path} is served already; lab goes by that server")
        room.refused(["solve", "A", "--cost", "pack"], 64, "the server searches by the cost trunk; begin it with lab serve --cost pack")
        ran = room.run("run", "-", stdin="open swapout A\n", folder="lab")
        room.same("open", (ran.returncode, ran.stderr), (64, "lab: line 1 is no command that a server takes: open; end lab serve for open, turn, finish and drills\n"))
        noted = [line.split("\t")[3:] for line in open(f"{server.path}/log", encoding="utf-8").read().splitlines()]
        room.same("the log", noted[-4:], [["in A", "in A"], ["recover", "recovered 0 0"], ["run -", "out A"], ["delete C", "unknown C"]])
        room.same("its end", (server.end(), os.path.exists(f"{server.path}/socket")), (0, False))
        room.same("behind it", room.run("status", folder="lab").stdout.splitlines()[0], "exp A out 0 0")

    def test_strangers(self):
        """What is no request ends nothing, nor does a client that goes away in its swap."""
        room, server = self.room, Served(self.room)
        self.create(["A"])
        for text in (b"", b"\n", b"[]\n", b'{"length": -1}\n', b'{"length": 5}\nab', b'{"length": 4}\nfoo\n', b"\xff\x00" * 50_000, b'{"length": 12, "cost": 7}\nstatus\nshow\n'):
            with socket.socket(socket.AF_UNIX) as it:
                it.connect(f"{server.path}/socket")
                it.sendall(text)
                it.shutdown(socket.SHUT_WR)
                try:
                    told = it.recv(4096)
                except ConnectionResetError:
                    told = b'"status": 64'
                room.same(f"{text[:20]}", b'"status": 64' in told, True)
        with socket.socket(socket.AF_UNIX) as it:
            it.connect(f"{server.path}/socket")
            it.sendall(b'{"length": 11}\nswapin A 1\n')
            it.recv(10)
        until = time.monotonic() + 20
        while room.run("status", folder="lab").stdout.splitlines()[0] != "exp A in 2 1" and time.monotonic() < until:
            time.sleep(0.05)
        room.same("its swap", room.run("status", folder="lab").stdout.splitlines()[0], "exp A in 2 1")
        server.end()
        room.same("a stale socket", (room.file("lab/socket", ""), room.run("status", folder="lab").stdout.splitlines()[0])[1], "exp A in 2 1")
        room.refused(["serve"], 73, f"{server.path}/socket is no socket; take it away")

    def test_labctl_ends(self):
        """Where labctl ends by itself, the server begins another, and tells who had asked."""
        room, server = self.room, Served(self.room)
        self.create(["A"])
        children = open(f"/proc/{server.process.pid}/task/{server.process.pid}/children", encoding="utf-8").read().split()
        for child in children:
            os.kill(int(child), signal.SIGKILL)
        ran = room.run("status", folder="lab")
        room.same("who asked", (ran.returncode, ran.stderr), (12, "lab: labctl ended with -9 and was begun anew, which settles what moves; see lab status\n"))
        room.same("the next", room.run("status", folder="lab").stdout, "exp A out 0 0\nfree 12 100\n")
        server.end()

    def test_side_by_side(self):
        """Six clients swap at once, one turn each in turn, and status comes between; each swap ends as wanted."""
        room, server = self.room, Served(self.room)
        names = [f"E{number}" for number in range(CLIENTS)]
        self.create(names)
        told, seen = {}, set()

        def swap(name, word):
            told[name, word] = room.run(word, name, folder="lab")

        for word in ("in", "out"):
            clients = [threading.Thread(target=swap, args=(name, word)) for name in names]
            for it in clients:
                it.start()
            while any(it.is_alive() for it in clients):
                seen.add(room.run("status", folder="lab").returncode)
            for it in clients:
                it.join()
        room.same("what they were told", {key: ran.stdout for key, ran in told.items()}, {key: f"{key[1]} {key[0]}\n" for key in told})
        room.same("status between", (seen, len(told)), ({0}, 2 * CLIENTS))
        room.same("what is left", [line for line in room.tables("lab") if line.startswith("row")], [])
        server.end()

    def swap_on(self, server, name, turned):
        """Swaps an experiment in and out until the server ends."""
        word = b"swapin %s 1\n"
        while asked(server.path, word % name.encode(), turned) is not None:
            word = b"swapout %s\n" if word.startswith(b"swapin") else b"swapin %s 1\n"

    def test_kills(self):
        """The server is killed while six clients swap. The next one settles what moves, and then devices hold what the lab wants."""
        room, draw, names, met = self.room, random.Random(1), [f"E{number}" for number in range(CLIENTS)], 0
        self.create(names)
        for kill in range(GIVEN["kills"]):
            server, turns = Served(room), threading.Semaphore(0)
            status = asked(server.path, b"status\naudit\n") or []
            room.same(f"behind kill {kill}", ([line for line in status if " moving " in line], status[-1:]), ([], ["audit 0"]))
            clients = [threading.Thread(target=self.swap_on, args=(server, name, turns.release)) for name in names]
            for it in clients:
                it.start()
            # (each kill comes behind a drawn number of turns, so that it meets swaps on a slow machine too)
            met += all([turns.acquire(timeout=30) for _ in range(draw.randint(2, 80))])
            server.end(signal.SIGKILL)
            for it in clients:
                it.join()
        room.same("kills that came in swaps", met, GIVEN["kills"])
        room.same("at last", room.run("audit", folder="lab").stdout, "audit 0\n")


class Waiting(Trial):
    """A folder that is in use."""

    def test_waits(self):
        """With -w the lock is waited for, as long as it says."""
        import fcntl
        room = self.room
        room.run("set", f"{TOP}/demo/rack.ptop", folder="lab")
        lock = os.open(f"{room.path}/lab", os.O_RDONLY)
        fcntl.flock(lock, fcntl.LOCK_EX)
        busy = f"another program is at work in {room.path}/lab"
        room.refused(["status"], 75, f"{busy}; lab -w SECONDS waits, lab view looks meanwhile")
        room.refused(["-w", "0.2", "status"], 75, f"{busy}, still after 0.2 s; lab -w SECONDS waits, lab view looks meanwhile")
        room.refused(["status", "-w", "soon"], 64, "soon is no number of seconds, as 30 or 0.5")
        threading.Timer(0.5, os.close, [lock]).start()
        room.same("a wait", room.run("status", "-w", "30", folder="lab").stdout, "free 8 50\n")
