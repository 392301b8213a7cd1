"""The word `check`: each line of an NS file that is refused, with the manual's sentence and what to write in its place."""
import re
import sys

from .advice import sentence
from .codes import REFUSED, UNKNOWN, Wrong
from .emulab import cure, key_of, words_of
from .programs import manual
from .running import Run
from .texts import Command, Text, shown

# Faults of a whole text, behind which nothing can be told of other lines.
OF_ALL = "quote brace bracket after-quote after-brace escape many deep long limit not-run empty address subnet".split()
# Kinds where the form of the command helps.
OF_FORM = "arity node link number event unsupported".split()
# The most tries of a text, behind which its further faults aren't told.
MOST_TRIES = 300
BODIES = ("for", "foreach", "if", "while", "proc")


def add(words):
    """Adds the parser."""
    words.add("check", takes="").add_argument("file", metavar="FILE")


class Fault:
    """A refused command of an NS text: its line, the text of that line, the kind, the manual's sentence, and further advice."""

    def __init__(self, number, line, kind):
        self.number, self.line, self.kind = number, line.strip(), kind
        self.told, self.advice = sentence("Kinds of faults", kind, True), []

    def lines(self, file):
        return [shown(f"{file}:{self.number}: {self.line}"), f"  {self.kind}: {self.told}", *(f"  {it}" for it in self.advice)]


def taken_out(lines, number):
    """Takes the command out of an NS text that begins in the line of this number, and gives its lines."""
    text, at = b"", number - 1
    while at < len(lines):
        text += lines[at] + b"\n"
        lines[at] = b""
        at += 1
        if text.count(b"{") <= text.count(b"}") and text.count(b"[") <= text.count(b"]") and not text.endswith(b"\\\n"):
            break
    return text.decode(errors="replace").splitlines()


def tried(text):
    """Tries to make a network of a text in memory, and gives the words of the reply."""
    run = Run(None, quiet=True)
    status = run.of(b"ptop 1\nnode s1 switch\n" + Command("create x", text).script())
    words = run.replies[-1].split(" ") if run.replies else [""]
    if status not in (0, REFUSED) or words[0] not in ("created", "bad"):
        raise Wrong(status or UNKNOWN, f"labctl ended with {status}")
    return words


def used(command):
    """Gives the variables that a command takes the value of, with their indexes."""
    return [it[0] or it[1] or it[2] for it in re.findall(r"\$(\w+(?:\([^()]*\))?)|\$\{([^{}]*)\}|\bincr\s+([\w()$-]+)", command)]


def bases(names):
    return {name.partition("(")[0] for name in names}


def assigned(command):
    """Gives the variables and the procedures that a command sets."""
    if made := re.match(r"\s*proc\s+(\S+)", command):
        return {name for names in re.findall(r"\bglobal\s+([\w ]+)", command) for name in names.split()}, {made[1]}
    return bases(re.findall(r"\b(?:set|append|lappend|foreach|incr)\s+([\w]+)", command)), set()


class Check:
    """The search for all faults of an NS text: the faulty command is taken out, and the rest is tried again."""

    def __init__(self, text):
        self.text = text
        self.variables, self.procedures = set(), set()

    def follows(self, kind, command):
        """Whether a fault comes of a command that was taken out before."""
        if kind == "variable":
            return bool(bases(used(command)) & self.variables)
        return kind == "command" and bool(self.procedures & {*re.findall(r"(?:^|\[)\s*([\w-]+)", command)})

    def unset(self, number, command):
        """Gives the variable of a command that isn't set: the first one of which the program says so in the command's place."""
        own = assigned(command)[0]
        for name in used(command):
            if name.partition("(")[0] not in own or command.lstrip().startswith("incr"):
                lines = self.text.lines[:]
                lines[number - 1] = f"set {name}".encode()
                if tried(Text(self.text.path, b"\n".join(lines)))[1:] == ["x", str(number), "variable"]:
                    return name
        return None

    def advise(self, fault, command):
        """Adds the variable, the form of the command, and what the manual says to write."""
        if fault.kind == "variable":
            name = self.unset(fault.number, command)
            fault.told = f"{fault.told}: {name}" if name else fault.told
        form = fault.kind in OF_FORM and form_of(fault.line)
        if form:
            fault.advice.append(f"the form: {form}")
        row = cure(fault.line, fault.kind)
        if row:
            fault.advice.append(f"From Emulab: {'nothing: ' if row.is_nothing() else 'write '}{row.advice()}")

    def faults(self):
        """Gives each fault; none that follows from a command that was refused before."""
        found = False
        for _ in range(MOST_TRIES):
            words = tried(self.text)
            if words[0] == "created":
                break
            number, kind = int(words[2]), words[3]
            line = self.text.lines[number - 1].decode(errors="replace") if number <= len(self.text.lines) else ""
            fault = Fault(number, line, kind)
            if kind in OF_ALL:
                if not found:
                    self.advise(fault, line)
                    yield fault
                return
            lines = taken_out(self.text.lines, number)
            command = "\n".join(lines)
            if not self.follows(kind, command):
                found = True
                self.advise(fault, command)
                # (a fault inside a loop has the line on which the loop begins)
                if len(lines) > 1 and line.split()[:1] and line.split()[0] in BODIES:
                    fault.advice.append("what stands in its body isn't tried")
                yield fault
            variables, procedures = assigned(command)
            self.variables |= variables
            self.procedures |= procedures
        if not found:
            self.made = words


def form_of(line):
    """Gives the form of the command of a line, as the manual has it."""
    key, inside = key_of(words_of(line)), False
    for row in manual():
        inside = inside and not row.startswith("### ") or row == "### NS text"
        for form in re.findall(r"`([^`]+)`", row.split("|")[1]) if inside and row.startswith("| `") else []:
            if key_of(form.split()) == key:
                return form
    return None


def faults(text):
    """Gives each fault of an NS text. The text's lines are blanked as they are told."""
    return Check(text).faults()


def run(args, lab):
    """Tells each line of an NS text that is refused."""
    check = Check(Text(args.file))
    found = False
    for fault in check.faults():
        print(*fault.lines(args.file), sep="\n")
        found = True
    if not found:
        print(f"{args.file}: {check.made[2]} virtual nodes, {check.made[3]} segments")
    else:
        print(f"lab flat {args.file} takes all of Tcl, and tells what it leaves out", file=sys.stderr)
    return REFUSED if found else 0
