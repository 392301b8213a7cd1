"""The words of lab: a light table of them, and the reading of a command line. A word's module is imported only when the word is used."""
import os
import sys

from .codes import FOLDER, USAGE, Wrong
from .parsing import Parser, moment, name, seconds

# Each word by its group: the module that does it, its forms, and a summary. E is an experiment, and what stands in [ ] may be left out.
GROUPS = {
    "The lab": {
        "set": ("commands", ["FILE"], "sets the lab of a ptop text"),
        "status": ("commands", [""], "lists the experiments, and what is free"),
        "map": ("looks", [""], "who holds which machine"),
        "view": ("looks", ["[--check [--records] | --svg]"], "looks at the lab by labview: its text, what its journal holds, a picture"),
        "grow": ("grow", ["FILE TO"], "the lab over another ptop text, in a new folder, with its experiments as they are"),
        "audit": ("commands", [""], "tells in what the devices differ from the lab"),
        "recover": ("commands", [""], "settles the experiments that move"),
        "off": ("service", ["[MACHINE [REASON ..]]"], "takes a machine out of service; without one it lists them"),
        "on": ("service", ["MACHINE"], "puts a machine back into service"),
        "log": ("log", ["[N]"], "what was done: time, user, command, reply, seconds"),
        "serve": ("server", [""], "serves the folder to several people at once, until it is interrupted"),
        "net": ("net", ["up", "test [--frames]", "sh MACHINE [-- COMMAND ..]", "down"], "what the devices hold as a network on this machine"),
        "dump": ("dump", [""], "a script that makes the lab anew"),
    },
    "An experiment": {
        "check": ("check", ["FILE"], "tells each line of an NS file that is refused"),
        "flat": ("flat", ["[--top] FILE"], "turns an NS file as Emulab's users write it into kept commands, or into a top text"),
        "create": ("commands", ["E FILE", "E --tcl FILE"], "makes E of an NS file; of a top text where FILE ends in .top"),
        "solve": ("commands", ["E [SEED]"], "tells a place for E, and changes nothing"),
        "in": ("commands", ["E [SEED]", "E PLACE"], "swaps E in where a search finds a place, or as a solution text says"),
        "modify": ("commands", ["E FILE [SEED]", "E FILE.top PLACE"], "changes E, which is in, to another text"),
        "play": ("play", ["E FILE FROM TO", "E FILE now"], "makes the changes that the link events of an NS file ask for"),
        "out": ("commands", ["E"], "swaps E out"),
        "delete": ("commands", ["E"], "removes E, which is out"),
        "show": ("commands", ["E"], "tells the phase of E and its text, and its place"),
        "hosts": ("hosts", ["E"], "names and addresses of E, as a text for /etc/hosts, or an inventory of Ansible"),
        "graph": ("graph", ["E"], "a picture of E: its nodes, links and LANs, and its machines where it is in"),
    },
    "Scripts": {
        "run": ("scripts", ["FILE"], "runs a script; - is standard input"),
        "batch": ("commands", ["NOW FILE"], "serves a queue of runs beside advance promises, at the moment NOW"),
    },
    "Help": {
        "help": ("help", ["[WORD]"], "tells of a word, with an example"),
    },
}
WORDS = {word: entry for group in GROUPS.values() for word, entry in group.items()}
# The words whose commands are noted in the folder. Looks, dry runs and searches without a swap are not.
NOTED = ("set", "create", "in", "modify", "play", "batch", "out", "delete", "recover", "run", "off", "on")
# Commands of a script, by what they are here.
SCRIPTS = {"ptop": "set", "create-top": "create", "swapin": "in", "swapin-with": "in", "modify-with": "modify", "swapout": "out"}
# The common options, each by the letter of `takes`: how it is written, and what argparse is told of it.
OPTIONS = {
    "d": (("-d",), {"metavar": "DIR", "dest": "folder", "help": "the lab's folder; else $LAB_DIR, else ./lab"}),
    "n": (("-n",), {"action": "store_true", "dest": "dry", "help": "a dry run on a copy: the replies, and what devices would hold"}),
    "v": (("-v",), {"action": "store_true", "dest": "turns", "help": "counts the turns of a swap on standard error"}),
    "m": (("-m",), {"action": "store_true", "dest": "memory", "help": "in memory, without a folder; the lab is gone with the run"}),
    "w": (("-w",), {"metavar": "SECONDS", "dest": "wait", "help": "waits so long for a folder that is in use"}),
    "c": (("--cost",), {"choices": ("trunk", "pack"), "help": "what searches count as the cost of a place"}),
}
WITH_VALUES = ("-d", "-w", "--cost")


def usage(word):
    """Tells how a word is written, or which one may be meant."""
    if word in SCRIPTS:
        return f"no such command: {word}; here it is lab {SCRIPTS[word]}"
    if word not in WORDS:
        return f"no such command: {word}; see lab --help"
    return "usage: " + ", or ".join(f"lab {word} {form}".strip() for form in WORDS[word][1])


class Unused:
    """The parser of another word of a module than the one that is used: nothing is made of it."""

    def add_argument(self, *_, **__):
        return None


class Words:
    """Takes the parser of one word from its module."""

    name, moment, seconds = staticmethod(name), staticmethod(moment), staticmethod(seconds)

    def __init__(self, wanted):
        self.wanted, self.parser = wanted, None

    def add(self, word, takes="w", json=False, example=None):
        """Gives the parser of a word, with its common options."""
        if word != self.wanted:
            return Unused()
        parser = Parser(word, usage(word), WORDS[word][2], example)
        for letter in "d" + takes:
            names, words = OPTIONS[letter]
            parser.add_argument(*names, **words)
        if json:
            parser.add_argument("--json", action="store_true", help="the reply as JSON, as the manual's schema has it")
        self.parser = parser
        return parser


def module_of(word):
    """Imports the module of a word, and gives it with the word's parser."""
    module, words = __import__(f"{__package__}.{WORDS[word][0]}", fromlist=["add"]), Words(word)
    module.add(words)
    return module, words.parser


def split(given):
    """Gives the word of a command line, and all that stands before and behind it."""
    at = 0
    while at < len(given):
        if given[at] in ("-h", "--help", "--version"):
            return given[at].lstrip("-"), given[at + 1:]
        if not given[at].startswith("-"):
            return given[at], given[:at] + given[at + 1:]
        at += 2 if given[at] in WITH_VALUES else 1
    if given and given[-1] in WITH_VALUES:
        raise Wrong(USAGE, f"{given[-1]} wants {'a folder' if given[-1] == '-d' else 'a word'} behind it")
    unknown = [it for it in given if it.startswith("-") and it not in [name for names, _ in OPTIONS.values() for name in names]]
    if unknown and not unknown[0].startswith(WITH_VALUES):
        raise Wrong(USAGE, f"no such option: {unknown[0]}; see lab --help")
    raise Wrong(USAGE, "usage: lab [-d DIR] COMMAND ..; see lab --help")


def lab_of(args):
    """Gives the lab that the options name."""
    from .lab import Lab
    chosen = [letter for letter in "nvm" if getattr(args, OPTIONS[letter][1]["dest"], False)]
    if len(chosen) > 1:
        raise Wrong(USAGE, f"-{chosen[0]} and -{chosen[1]} don't go together: a dry run is done whole on a copy, and -m has no folder")
    wait, path = getattr(args, "wait", None), args.folder or os.environ.get("LAB_DIR") or "lab"
    if not path.isprintable() and any("\ud800" <= it <= "\udfff" for it in path):
        raise Wrong(USAGE, f"{path} isn't UTF-8, and labctl takes no such folder; give it another name")
    return Lab(path, dry=getattr(args, "dry", False), turns=getattr(args, "turns", False),
               in_memory=getattr(args, "memory", False), wait=seconds(wait) if wait else 0, cost=getattr(args, "cost", None),
               json=getattr(args, "json", False))


def without_common(given):
    """Gives the words of a command line without the options that say where and how it is done."""
    kept, given = [], list(given)
    while given:
        word = given.pop(0)
        if word in ("-d", "-w"):
            del given[:1]
        elif word not in ("-v", "--json"):
            kept.append(word)
    return kept


def noted(args, lab, do):
    """Does a word, and notes it in the folder where it changes something; a server notes what it does itself."""
    if args.word not in NOTED or lab.dry or lab.in_memory or args.word == "off" and args.machine is None:
        return do(args, lab)
    import time
    from .log import note, user
    began, lab.given = time.time(), args.given
    status = do(args, lab)
    if lab.server is None or args.word in ("off", "on"):
        note(lab.path, user(), began, args.given, (lab.replies or [f"code {status}"])[-1])
    return status


def run(given):
    """Does what a command line says, and gives the exit status."""
    word, rest = split(given)
    if word in ("h", "help"):
        from .help import tell
        return tell(rest)
    if word == "version":
        from .help import versions
        return versions()
    if word not in WORDS:
        raise Wrong(USAGE, usage(word))
    if {"-h", "--help"} & set(rest[:rest.index("--")] if "--" in rest else rest):
        from .help import tell
        return tell([word])
    module, parser = module_of(word)
    args = parser.parse(rest)
    args.word, args.given = word, [word, *without_common(rest)]
    return noted(args, lab_of(args), module.run)


def printable(text):
    """Gives a text without what a terminal would obey, whatever names of files stand in it."""
    return "".join(it if it.isprintable() or it == "\n" else ascii(it)[1:-1] for it in text)


def main():
    """Does what this process is asked for, and ends it with the exit status."""
    import signal
    signal.signal(signal.SIGPIPE, signal.SIG_DFL)
    # (a name of a file is told as the bytes that it is)
    sys.stdout.reconfigure(errors="surrogateescape")
    try:
        sys.exit(run(sys.argv[1:]))
    except Wrong as wrong:
        print(f"lab: {printable(str(wrong))}", file=sys.stderr)
        sys.exit(wrong.status)
    except KeyboardInterrupt:
        sys.exit(130)
    except BrokenPipeError:
        os._exit(141)
    except OSError as fault:
        print(f"lab: {printable(str(fault.filename or 'the system'))}: {fault.strerror}", file=sys.stderr)
        sys.exit(FOLDER)
