"""What was done in a folder: a line for each command that changes something, in its file `log`; and the word `log`, which tells it."""
import json
import os
import re
import sys
import time

from .codes import FOLDER, REFUSED, Wrong

NAME = "log"
# The seconds between two looks of `lab log -f`.
PAUSE = 0.2
KEYS = ("time", "user", "seconds", "command", "reply")


def add(words):
    """Adds the parser."""
    parser = words.add("log", takes="", json=True, example="lab log 20 tells the last 20 lines; lab log -f goes on as lines come")
    parser.add_argument("number", metavar="N", nargs="?", type=int, help="only the last N lines")
    parser.add_argument("-f", action="store_true", dest="follow", help="goes on as lines come")
    parser.add_argument("--of", metavar="E", type=words.name, help="only lines that name this experiment or machine")


def stamp():
    """Gives the moment, as 2026-12-01T10:20:30Z."""
    return time.strftime("%Y-%m-%dT%H:%M:%SZ", time.gmtime())


def user(uid=None):
    """Gives the name of a user, else the number; of this process where none is given."""
    import pwd
    uid = os.getuid() if uid is None else uid
    try:
        return pwd.getpwuid(uid).pw_name
    except KeyError:
        return str(uid)


def plain(text):
    """Gives a text without tabs, line ends and other bytes that a terminal would obey, and of at most 500 letters."""
    text = text.encode("utf-8", "surrogateescape").decode("utf-8", "backslashreplace")
    text = "".join(it if it.isprintable() else it.encode("unicode_escape").decode() for it in text)
    return text if len(text) <= 500 else text[:497] + ".."


def append(path, line):
    """Adds a line to a file by one write, which follows no link."""
    file = os.open(path, os.O_WRONLY | os.O_APPEND | os.O_CREAT | os.O_NOFOLLOW, 0o664)
    try:
        os.write(file, line.encode() + b"\n")
    finally:
        os.close(file)


def note(folder, who, began, words, reply):
    """Notes a command: who gave it, when it began by `time.time()`, its words, and its last reply. A fault is told, and ends nothing."""
    if not os.path.isdir(folder):
        return
    moment = time.strftime("%Y-%m-%dT%H:%M:%SZ", time.gmtime(began))
    line = "\t".join([moment, plain(who), f"{time.time() - began:.2f}", plain(" ".join(words)), plain(reply)])
    try:
        append(f"{folder}/{NAME}", line)
    except OSError as fault:
        print(f"  {folder}/{NAME} can't be written: {fault.strerror}; the command is done", file=sys.stderr)


def parts(line):
    """Gives a line's parts by their keys, or nothing where it has another form."""
    found = line.rstrip("\n").split("\t")
    is_entry = len(found) == len(KEYS) and re.fullmatch(r"[0-9]+\.[0-9]+", found[2])
    return dict(zip(KEYS, found)) if is_entry else None


def told(entry, as_json):
    """Gives an entry as it is told."""
    if as_json:
        return json.dumps({**entry, "seconds": float(entry["seconds"])})
    return f"{entry['time']}  {entry['user']:<10} {entry['seconds']:>7} s  {entry['command']}  ->  {entry['reply']}"


def chosen(lines, name):
    """Gives the entries of lines, of those that have this word in command or reply where one is named."""
    for entry in map(parts, lines):
        if entry and (not name or name in entry["command"].split(" ") + entry["reply"].split(" ")):
            yield entry


def run(args, lab):
    """Tells the log."""
    path = f"{lab.path}/{NAME}"
    if not os.path.isdir(lab.path):
        raise Wrong(FOLDER, f"there is no folder {lab.path}; name one by -d")
    if not os.path.exists(path) and not args.follow:
        raise Wrong(REFUSED, f"nothing is noted in {lab.path}: lab and lab serve note what they change, labctl by itself doesn't")
    if not os.path.exists(path):
        append(path, "what was done")
    with open(path, encoding="utf-8", errors="backslashreplace") as it:
        entries = [told(entry, lab.json) for entry in chosen(it, args.of)]
        entries = entries[-args.number:] if args.number else entries
        if lab.json and not args.follow:
            print("[" + ",\n ".join(entries) + "]")
            return 0
        print("\n".join(entries) + "\n" if entries else "", end="", flush=True)
        while args.follow:
            for entry in chosen([line] if (line := it.readline()) else [], args.of):
                print(told(entry, lab.json), flush=True)
            if not line:
                time.sleep(PAUSE)
    return 0
