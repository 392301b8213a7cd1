"""A lab over a copy of a folder: what is done there changes nothing."""
import contextlib
import os
import tempfile

from .folder import copy

# What a copy has beside the files of labctl.
LISTS = ("off",)


@contextlib.contextmanager
def copied(lab):
    """Gives another lab over a copy of the folder, which is gone behind it. Nothing changes the folder while it is copied."""
    with tempfile.TemporaryDirectory(prefix="lab-") as room:
        if os.path.isdir(lab.path):
            lab.hold(new=True)
            with lab.server.still() if lab.server else contextlib.nullcontext():
                copy(lab.path, room, LISTS)
        other = type(lab)(room, turns=lab.turns, cost=lab.cost, json=lab.json)
        try:
            yield other
        finally:
            if other.folder:
                other.folder.release()
