"""The turns of a swap, counted on standard error: each by its number, and how many there will be where nothing goes wrong."""
import sys


def number_of(lab, command, exp):
    """Gives how many turns a swap takes on a copy, where nothing goes wrong."""
    from .running import Run
    turns = [0]

    def count(turn, trouble):
        turns[0] = turn + 1

    with lab.copy() as copied:
        folder = copied.hold(new=True)
        Run(folder.path, folder.lock, quiet=True, cost=copied.cost).turned(command, exp, count)
    return turns[0]


class Turns:
    """Tells turns: over the line before at a terminal, else in a line of its own."""

    def __init__(self, lab, command, exp):
        self.exp, self.told, self.number = exp, False, number_of(lab, command, exp)

    def __enter__(self):
        return self

    def __exit__(self, *_):
        if self.told and sys.stderr.isatty():
            sys.stderr.write("\n")

    def tell(self, turn, trouble):
        """Tells a turn. Behind trouble the number of turns isn't known."""
        if trouble:
            self.number = 0
        of = f" of {self.number}" if self.number >= turn else ""
        what = f"{self.exp}: turn {turn}{of}" if turn else f"{self.exp}: open{', ' + str(self.number) + ' turns' if self.number else ''}"
        is_over = sys.stderr.isatty() and not trouble
        sys.stderr.write(f"\r{what}" if is_over else f"{what}{' ' + trouble if trouble else ''}\n")
        sys.stderr.flush()
        self.told = True
