"""The word `grow`: the lab of a folder over another lab's text, in a new folder."""
import contextlib
import os
import shutil
import subprocess

from .codes import FOLDER, REFUSED, STUCK, USAGE, Wrong
from .programs import labctl, program

# What goes over beside the files of labctl.
LISTS = ("off", "log")


def add(words):
    """Adds the parser."""
    parser = words.add("grow", takes="w", example="lab grow more.ptop lab2; then lab -d lab2 status, and the old folder is put away")
    parser.add_argument("file", metavar="FILE")
    parser.add_argument("to", metavar="TO", completes="dir")


def labgrow():
    """Gives the path of labgrow."""
    found = program("labgrow")
    if not found:
        raise Wrong(USAGE, "there is no labgrow; ./install DIR puts it beside lab, or name it by LABGROW")
    return found


def refuse_places(file, to):
    """Refuses a text that can't be read, and a folder that is there or can't be made."""
    if not os.access(file, os.R_OK):
        raise Wrong(FOLDER, f"{file} can't be read")
    if os.path.exists(to):
        raise Wrong(FOLDER, f"{to} is there; name a folder that is new")
    above = os.path.dirname(os.path.abspath(to))
    if not os.access(above, os.W_OK):
        raise Wrong(FOLDER, f"{above}, where {to} would be, can't be written")


def differences(lines):
    """Gives the audit of replies in one line, if it tells a difference."""
    told = [line for line in lines if line.startswith("audit ")]
    return None if told == ["audit 0"] else "; ".join(lines[-3:])


def audited(path):
    """Gives in what the devices of a folder differ from its lab, if they do."""
    ran = subprocess.run([labctl(), "--dir", path], input=b"audit\n", stdout=subprocess.PIPE)
    return differences(ran.stdout.decode(errors="replace").splitlines())


def take_over(lab, to):
    """Copies the lists of lab, and looks whether the new folder is as it is to be; else it is taken away."""
    for name in LISTS:
        if os.path.exists(f"{lab.path}/{name}"):
            shutil.copyfile(f"{lab.path}/{name}", f"{to}/{name}")
    found = audited(to)
    if found:
        shutil.rmtree(to)
        raise Wrong(STUCK, f"the devices differ from the new lab, and {to} was taken away again: {found}")


def grow(lab, file, to):
    """Makes the new folder, and tells the reply of labgrow; gives its exit status."""
    ran = subprocess.run([labgrow(), os.path.abspath(lab.path), file, to], stdout=subprocess.PIPE)
    reply = ran.stdout.decode(errors="replace").splitlines()
    if ran.returncode == 0:
        take_over(lab, to)
    if reply:
        lab.tell(reply)
    return ran.returncode


def run(args, lab):
    """Grows the lab. Nobody changes the folder meanwhile, and its devices are as its lab wants them."""
    refuse_places(args.file, args.to)
    lab.hold()
    found = differences(lab.ask("audit\n"))
    if found:
        raise Wrong(REFUSED, f"the devices differ from the lab, and would from the new one; see lab audit: {found}")
    with lab.server.still() if lab.server else contextlib.nullcontext():
        return grow(lab, os.path.abspath(args.file), os.path.abspath(args.to))
