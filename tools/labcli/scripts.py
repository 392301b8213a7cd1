"""The word `run`: a script, over the folder, on a copy or in memory."""
import os
import sys

from .codes import USAGE, Wrong
from .running import Run
from .texts import read


def add(words):
    """Adds the parser."""
    words.add("run", takes="nmwc").add_argument("file", metavar="FILE")


def over(lab, run, file):
    """Runs a script of a file without a byte order mark, or standard input as it comes."""
    status = run.over(sys.stdin) if file == "-" else run.of(read(file).removeprefix(b"\xef\xbb\xbf"))
    lab.replies += run.replies[-1:]
    return status


def run(args, lab):
    """Runs the script."""
    if args.file != "-" and not os.access(args.file, os.R_OK):
        raise Wrong(USAGE, f"can't read {args.file}")
    if lab.in_memory:
        return over(lab, Run(None, cost=lab.cost), args.file)
    if lab.dry:
        from .dry import dry
        return dry(lab, lambda copied: over(copied, copied.run(new=True), args.file))
    return over(lab, lab.run(new=True), args.file)
