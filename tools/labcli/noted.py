"""What an NS file asks for: its commands as a real Tcl evaluates them, noted by `flat.tcl` within limits on time and memory."""
import os
import signal
import subprocess
import tempfile

from .codes import REFUSED, USAGE, Wrong
from .programs import HERE, on_path
from .texts import Text

# The seconds of a processor that a file may take, those in all, and those behind which its evaluation is ended from outside.
PROCESSOR_SECONDS, SECONDS, LAST_SECONDS = 4, 30, 60
# The most bytes of a file, of what is noted of it, and of the memory of its evaluation.
MOST_TEXT, MOST_NOTES, MEMORY = 2 ** 20, 2 ** 24, 2 ** 28
ESCAPES = {"\\\\": "\\", "\\t": "\t", "\\n": "\n", "\\r": "\r"}

# What ends an evaluation, by its kind: what is told, of a word or a number.
KINDS = {
    "refused": "{} would reach out of the file, and is refused; take the line out",
    "anew": "{} is a word that stays as it is; give yours another name",
    "calls": "more than {} commands of the testbed; make the experiment smaller",
    "bytes": "the commands of the testbed have more than {} bytes; make the experiment smaller",
    "commands": "it goes on and on: more commands than any network needs; look for a loop that doesn't end",
    "time": f"it takes more than {PROCESSOR_SECONDS} seconds of a processor, or {SECONDS} in all; look for a loop that doesn't end",
    "memory": f"it asks for more than {MEMORY >> 20} MB of memory; look for a text or a list that grows",
    "deep": "it is nested deeper than Tcl can read",
    "end": "the file ends without `$ns run`; write that as its last line",
    "tcl": "{}",
}


class Fault(Exception):
    """A fault of a file, at a line (0: of the whole file): its kind, and what is told."""

    def __init__(self, line, kind, told):
        super().__init__(told)
        self.line, self.kind, self.told = line, kind, told


class Call:
    """A command of the testbed: its line, the word of the object that it gave or an empty one, and its words."""

    def __init__(self, line, result, words):
        self.line, self.result, self.words = line, result, words


class Noted:
    """What a file asks for: its calls in order, what it would print by line, and the variable that names an object."""

    def __init__(self, records):
        self.calls, self.says, self.names, self.run = [], {}, {}, 0
        for kind, *fields in records:
            if kind == "call":
                self.calls.append(Call(int(fields[0]), fields[1], fields[2:]))
            elif kind == "says":
                self.says[int(fields[0])] = fields[1]
            elif kind == "name":
                self.names.setdefault(fields[0], fields[1])
            elif kind == "fault":
                raise fault_of(int(fields[0]), fields[1], fields[2])
            elif kind == "run":
                self.run = int(fields[0])
            elif kind == "end":
                raise Fault(0, "end", KINDS["end"])


def fault_of(line, kind, about):
    """Gives the fault of a record."""
    if (kind, about) == ("refused", "source"):
        return Fault(line, kind, "source of another file than tb_compat.tcl is refused; put its lines into this file")
    return Fault(line, kind, KINDS[kind].format(about))


def unescaped(field):
    """Gives a field as it was before its escapes."""
    if "\\" not in field:
        return field
    parts, at = [], 0
    while at < len(field):
        pair = field[at:at + 2]
        parts.append(ESCAPES.get(pair, pair[:1]))
        at += 2 if pair in ESCAPES else 1
    return "".join(parts)


def limited():
    """Limits the process that is about to begin: memory, processor time, no file that it writes, no core."""
    import resource
    for what, limit in ((resource.RLIMIT_AS, MEMORY), (resource.RLIMIT_CPU, PROCESSOR_SECONDS), (resource.RLIMIT_FSIZE, 0),
                        (resource.RLIMIT_CORE, 0)):
        resource.setrlimit(what, (limit, limit))


def tclsh():
    """Gives the path of tclsh."""
    found = os.environ.get("TCLSH") or on_path("tclsh") or on_path("tclsh8.6")
    if not found:
        raise Wrong(USAGE, "there is no tclsh; install the package tcl of your system, or name the program by TCLSH")
    return found


def evaluated(path):
    """Runs `flat.tcl` over a file: its output, its errors and its status; None as the status where it had to be ended."""
    environment = {name: value for name, value in os.environ.items() if name != "TCLLIBPATH"}
    with subprocess.Popen([tclsh(), f"{HERE}/flat.tcl", path, str(SECONDS)], stdin=subprocess.DEVNULL, stdout=subprocess.PIPE,
                          stderr=subprocess.PIPE, env=environment, preexec_fn=limited) as running:
        try:
            out, errors = running.communicate(timeout=LAST_SECONDS)
        except subprocess.TimeoutExpired:
            running.kill()
            return b"", b"", None
        return out[:MOST_NOTES], errors, running.returncode


def ended(status, errors):
    """Gives the fault of an evaluation that didn't come to its end."""
    if status in (None, -signal.SIGXCPU, -signal.SIGKILL):
        return Fault(0, "time", KINDS["time"])
    if status == -signal.SIGABRT or b"alloc" in errors or b"memory" in errors:
        return Fault(0, "memory", KINDS["memory"])
    if status == -signal.SIGSEGV:
        return Fault(0, "deep", KINDS["deep"])
    told = errors.decode(errors="backslashreplace").strip().splitlines()
    raise Wrong(REFUSED, f"tclsh ended with {status}: {told[0] if told else 'no word'}; is it Tcl 8.6 or later?")


def noted(text):
    """Gives what the lines of a file ask for."""
    block = text.block()
    if len(block) > MOST_TEXT:
        raise Fault(0, "long", f"the file has {len(block)} bytes, and at most {MOST_TEXT} are read")
    with tempfile.NamedTemporaryFile(prefix="lab-", suffix=".ns") as file:
        # (Tcl takes the byte 26 for the end of a file)
        file.write(block.replace(b"\x1a", b" "))
        file.flush()
        out, errors, status = evaluated(file.name)
    if status:
        raise ended(status, errors)
    lines = out.decode(errors="replace").split("\n")
    return Noted([[unescaped(field) for field in line.split("\t")] for line in lines if line])


def read_text(path):
    """Gives the text of a file, or of standard input where the path is -."""
    if path != "-":
        return Text(path)
    import sys
    return Text("-", sys.stdin.buffer.read(MOST_TEXT + 1))
