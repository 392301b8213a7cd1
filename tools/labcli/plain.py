"""The module argparse, whose messages stay as they are written: it looks for translations of each, which takes a part of a small run."""
import sys
import types


def imported():
    """Imports argparse beside a stand-in of gettext, which is gone behind it, and gives it."""
    found, stand_in = sys.modules.get("gettext"), types.ModuleType("gettext")
    stand_in.gettext = lambda text: text
    stand_in.ngettext = lambda one, many, count: one if count == 1 else many
    sys.modules["gettext"] = stand_in
    try:
        import argparse
    finally:
        del sys.modules["gettext"]
        if found:
            sys.modules["gettext"] = found
    return argparse


argparse = imported()
