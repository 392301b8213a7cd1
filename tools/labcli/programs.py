"""The programs that lab runs, and the files that stand beside it: found in a clone, and where `./install` puts them."""
import os

from .codes import USAGE, Wrong

# The folder of this package, and that of the launcher which found it.
HERE = os.path.dirname(os.path.realpath(__file__))
LAUNCHER = os.path.dirname(os.path.realpath(os.environ.get("LAB_LAUNCHER") or f"{HERE}/../lab"))


def on_path(name):
    """Gives the first program of that name on the path."""
    for folder in os.get_exec_path():
        path = os.path.join(folder, name)
        if folder and os.access(path, os.X_OK) and os.path.isfile(path):
            return path
    return None


def program(name):
    """Finds a program: as the environment names it, beside the launcher, where the repository builds it, or on the path."""
    named = os.environ.get(name.upper())
    if named and not (os.path.isfile(named) and os.access(named, os.X_OK)):
        raise Wrong(USAGE, f"{name.upper()} names {named}, which is no program; mend it, or unset it")
    if named:
        return named
    out = f"{HERE}/../../crates/{name}/out"
    for path in (f"{LAUNCHER}/{name}", f"{out}/{name}", f"{out}/{name}_fast", f"{out}/{name}_checked"):
        if os.access(path, os.X_OK) and os.path.isfile(path):
            return path
    return on_path(name)


def labctl():
    """Gives the path of labctl."""
    found = program("labctl")
    if not found:
        raise Wrong(USAGE, "there is no labctl; in the repository ./run demo/first.lab builds it; or name it by LABCTL")
    return found


def labview():
    """Gives the path of labview."""
    found = program("labview")
    if not found:
        raise Wrong(USAGE, "there is no labview; in the repository tools/program fast labview builds it, ./install DIR puts it beside lab; or name it by LABVIEW")
    return found


def manual():
    """Gives the manual's lines, where it is found."""
    for path in (os.environ.get("LAB_MANUAL", ""), f"{HERE}/../../docs/MANUAL.md", f"{HERE}/../../doc/labctl/MANUAL.md"):
        if os.path.isfile(path):
            with open(path, encoding="utf-8") as it:
                return it.read().splitlines()
    return []
