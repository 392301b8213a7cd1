"""The word `serve`: one labctl behind a socket in the folder, for several people at once.

Each client is served by a thread of its own, and all take turns at the one labctl, in the order in which they ask. A swap is opened, and
each of its turns is asked for anew; so swaps of several clients go on side by side, one turn each in turn, and other commands come between.
Where the server is killed, the next opening of the folder settles what moves."""
import collections
import contextlib
import json
import os
import signal
import socketserver
import sys
import threading
import time

from . import peers
from .codes import FOLDER, IN_USE, STUCK, UNKNOWN, USAGE, Worst, Wrong
from .grammar import commands
from .log import note, plain, user

# A drill, which a lab in a folder answers by `no drill` and does nothing: so it tells where a reply ends.
MARK, MARKED = b"stop 1 none\n", "no drill"
# The greatest length of a request, the seconds that a client may be silent or hold the lab still, and how many swaps may be open.
GREATEST, SILENT, SWAPS = 1 << 27, 20, 16


def add(words):
    """Adds the parser."""
    parser = words.add("serve", takes="wc", example="lab serve & ; then lab in ring by one, lab status by another; Ctrl-C or kill ends it")
    parser.add_argument("--group", action="store_true", help="serves the folder's group too, where the folder is the group's to write")


class Line:
    """A line at which threads stand for the one labctl: it is the turn of who came first."""

    def __init__(self):
        self.waiting, self.mutex, self.is_taken = collections.deque(), threading.Lock(), False

    def __enter__(self):
        with self.mutex:
            if not self.is_taken:
                self.is_taken = True
                return
            mine = threading.Event()
            self.waiting.append(mine)
        mine.wait()

    def __exit__(self, *_):
        with self.mutex:
            if self.waiting:
                self.waiting.popleft().set()
            else:
                self.is_taken = False


class Ended(Exception):
    """The program has ended, with its status."""


class Controller:
    """The one labctl over a locked folder. Where it ends by itself, another is begun, whose opening settles what moves."""

    def __init__(self, lab):
        self.lab, self.line, self.program, self.status = lab, Line(), None, 0
        self.give_up = lambda: None

    def begin(self):
        """Begins the program, and looks whether it tells where a reply ends."""
        self.program = self.lab.run(quiet=True, new=True).start()
        if self.exchange(b"") != []:
            raise Wrong(UNKNOWN, "this labctl doesn't tell where a reply ends; lab serve wants one of this repository")

    def exchange(self, text):
        """Gives the lines of the reply to a command."""
        with contextlib.suppress(BrokenPipeError):
            self.program.stdin.write(text + MARK)
            self.program.stdin.flush()
        told = []
        for line in self.program.stdout:
            line = line.decode(errors="replace").rstrip("\n")
            if line == MARKED:
                return told
            told.append(line)
        raise Ended(self.program.wait())

    def ask(self, text):
        """Stands in the line, and gives the lines of the reply to a command."""
        with self.line:
            try:
                return self.exchange(text)
            except Ended as ended:
                self.begin_anew()
                raise Wrong(STUCK, f"labctl ended with {ended} and was begun anew, which settles what moves; see lab status") from None

    def begin_anew(self):
        """Begins another program in the place of one that ended; where that ends too, so does the server."""
        try:
            self.begin()
        except Ended as ended:
            self.status = ended.args[0]
            self.give_up()
            raise Wrong(self.status, f"labctl ended with {ended}, and so does the server; see 'How a run ends' in the manual") from None

    def end(self):
        """Ends the program, once nobody asks any more."""
        with contextlib.suppress(BrokenPipeError):
            self.program.stdin.close()
        self.program.wait()


class Handler(socketserver.StreamRequestHandler):
    """A client: one request, and its replies as lines of JSON."""

    timeout = SILENT

    def tell(self, **value):
        """Tells the client; one that is gone is told nothing, and what it asked for goes on."""
        with contextlib.suppress(OSError):
            self.wfile.write(json.dumps(value).encode() + b"\n")

    def handle(self):
        self.who = peers.peer(self.connection)
        try:
            if not peers.has_leave(self.who, self.server.path, self.server.is_groups):
                raise Wrong(FOLDER, f"you have no leave to {self.server.path}")
            self.serve(*self.request_of())
        except Wrong as wrong:
            self.tell(wrong=str(wrong), status=wrong.status)
        except (OSError, ValueError, KeyError, TypeError, AttributeError):
            self.tell(wrong="that is no request of lab", status=USAGE)

    def request_of(self):
        """Reads a request: a line of JSON, and a script of the length that it tells."""
        head = json.loads(self.rfile.readline(65_536))
        length = head.get("length", 0)
        if not isinstance(length, int) or not 0 <= length <= GREATEST:
            raise ValueError
        script, words = self.rfile.read(length), head.get("words") or []
        if len(script) < length or not isinstance(words, list) or not all(isinstance(word, str) for word in words):
            raise ValueError
        return head, script

    def serve(self, head, script):
        if head.get("still"):
            return self.stand_still()
        if head.get("cost") not in (None, self.server.cost):
            raise Wrong(USAGE, f"the server searches by the cost {self.server.cost}; begin it with lab serve --cost {plain(str(head['cost']))}")
        asked, worst, began, reply = commands(script), Worst(), time.time(), ""
        for command in asked:
            lines = self.swap(command) if command.swapped else self.server.controller.ask(command.text)
            for line in lines:
                worst.see(line)
                reply = line
                self.tell(line=line)
        if words := head.get("words"):
            note(self.server.path, user(self.who[0]) if self.who else "unknown", began, words, reply)
        self.tell(status=worst.status)

    def swap(self, command):
        """Opens a swap and takes its turns, and gives its reply."""
        turn = 0
        with self.server.swaps:
            lines = self.server.controller.ask(b"open " + command.text)
            while lines and lines[0].partition(" ")[0] in ("more", "trouble"):
                self.tell(turn=turn, trouble=lines[0] if lines[0].startswith("trouble") else "")
                lines = self.server.controller.ask(f"turn {command.swapped}\n".encode())
                turn += 1
        if turn and lines[:1] == [f"not open {command.swapped}"]:
            raise Wrong(STUCK, f"the swap of {command.swapped} was broken off, as the disk or labctl failed; the next opening settles it: see lab status")
        return lines

    def stand_still(self):
        """Keeps all others off until the client is done, so that it can copy the folder."""
        with self.server.controller.line:
            self.tell(still=True)
            self.rfile.readline(16)


class Server(socketserver.ThreadingUnixStreamServer):
    """The socket of a folder. At its end it waits for the clients that it serves."""

    request_queue_size = 64
    daemon_threads = False

    def __init__(self, lab, is_groups):
        self.path, self.is_groups, self.cost = lab.path, is_groups, lab.cost or "trunk"
        self.swaps = threading.BoundedSemaphore(SWAPS)
        super().__init__(peers.NAME, Handler, bind_and_activate=False)
        self.controller = Controller(lab)

    def server_bind(self):
        peers.listen(self.socket, self.path, self.is_groups)

    def handle_error(self, request, client_address):
        """Tells a fault of a client's thread in one line; the others go on."""
        print(f"lab serve: {plain(repr(sys.exc_info()[1]))}", file=sys.stderr)


def end_by_signals(server):
    """Lets a signal end the server; a client that is gone ends nothing."""
    def end(*_):
        threading.Thread(target=server.shutdown).start()
    for number in (signal.SIGTERM, signal.SIGINT, signal.SIGHUP):
        # (one that is ignored, as nohup asks for it, stays so)
        if signal.getsignal(number) != signal.SIG_IGN:
            signal.signal(number, end)
    signal.signal(signal.SIGPIPE, signal.SIG_IGN)
    server.controller.give_up = end


def run(args, lab):
    """Serves, until a signal ends it."""
    if lab.served():
        raise Wrong(IN_USE, f"{lab.path} is served already; lab goes by that server")
    if args.group and os.path.isdir(lab.path) and not os.stat(lab.path).st_mode & 0o020:
        raise Wrong(FOLDER, f"{lab.path} isn't its group's to write: chmod g+ws {lab.path} first")
    lab.hold()
    server = Server(lab, args.group)
    try:
        server.controller.begin()
    except Ended as ended:
        return ended.args[0]
    end_by_signals(server)
    server.server_bind()
    server.server_activate()
    print(f"lab serve: {lab.path} is served; a signal ends it, once the open swaps are done", file=sys.stderr, flush=True)
    try:
        server.serve_forever(poll_interval=0.1)
    finally:
        # (who comes now finds no socket, and waits for the lock)
        with contextlib.suppress(FileNotFoundError):
            os.unlink(f"{lab.path}/{peers.NAME}")
        server.server_close()
    server.controller.end()
    return server.controller.status
