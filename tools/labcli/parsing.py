"""The reading of a word's command line: converters, and a parser whose options may stand anywhere."""
import re

from .codes import USAGE, Wrong
from .plain import argparse

GREATEST_TIME = 10 ** 12
# How the completion fills an argument in, by what the argument is called.
COMPLETED = {"E": "exp", "MACHINE": "machine", "FILE": "file", "PLACE": "file", "SEED | PLACE": "file", "DIR": "dir", "WORD": "word"}


def name(given):
    """A converter: the name of an experiment, machine or segment."""
    if not re.fullmatch(r"[A-Za-z0-9_.-]{1,32}", given):
        raise Wrong(USAGE, f"{given} is no name: 1 to 32 letters, digits, -, _ and .")
    return given


def moment(given):
    """A converter: a number from 0 to the greatest time."""
    if not (re.fullmatch(r"[0-9]{1,20}", given) and int(given) <= GREATEST_TIME):
        raise Wrong(USAGE, f"{given} is no time: a number from 0 to {GREATEST_TIME}")
    return given


def seconds(given):
    """A converter: a number of seconds."""
    if not re.fullmatch(r"[0-9]{1,9}(\.[0-9]{1,6})?", given):
        raise Wrong(USAGE, f"{given} is no number of seconds, as 30 or 0.5")
    return float(given)


def completed(action):
    """Gives how the completion fills in an argument that doesn't say so."""
    return COMPLETED.get(action.metavar, "none")


class Parser(argparse.ArgumentParser):
    """The parser of one word. Options may stand anywhere among the words."""

    def __init__(self, word, form, summary, example):
        self.word, self.form, self.summary, self.example = word, form, summary, example
        self.valued, self.noted = set(), []
        # (the width is given, since argparse would import more to ask for that of a terminal)
        super().__init__(prog=f"lab {word}", allow_abbrev=False, usage=form.removeprefix("usage: "), add_help=False,
                         formatter_class=lambda prog: argparse.HelpFormatter(prog, width=80))

    def add_argument(self, *names, completes=None, **words):
        action = super().add_argument(*names, **words)
        if action.option_strings and action.nargs != 0:
            self.valued.update(action.option_strings)
        self.noted.append((action, completes or completed(action)))
        return action

    def error(self, message):
        if option := re.match(r"unrecognized arguments: (-[^ =]+)", message):
            raise Wrong(USAGE, f"lab {self.word} takes no {option[1]}; {self.form}")
        if "required" in message or "unrecognized" in message:
            raise Wrong(USAGE, self.form)
        raise Wrong(USAGE, f"{message.removeprefix('argument ')}; {self.form}")

    def parse(self, given):
        """Reads the words behind this one: the options first, from wherever they stand, and then the others."""
        options, others, given = [], [], list(given)
        while given:
            word = given.pop(0)
            if word == "--":
                others += given
                break
            is_option = word.startswith("-") and word != "-"
            (options if is_option else others).append(word)
            if word in self.valued:
                if not given:
                    raise Wrong(USAGE, f"{word} wants a word behind it; {self.form}")
                options[-1:] = [f"{word}={given.pop(0)}" if word.startswith("--") else word + given.pop(0)]
        return self.parse_args([*options, *(["--", *others] if others else [])])
