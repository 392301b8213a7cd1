"""The replies of a run: told as they come, weighed, and kept."""
import sys

from .codes import Worst


class Replies:
    """The replies so far. Those that begin with words that are kept back aren't told, since more will be tried behind them."""

    def __init__(self, quiet, kept_back):
        self.quiet, self.kept_back = quiet, tuple(f"{words} " for words in kept_back)
        self.worst, self.replies = Worst(), []

    def is_kept_back(self, line):
        """Whether a reply isn't told yet."""
        return bool(self.kept_back) and line.startswith(self.kept_back)

    def told(self):
        """Gives the replies but for those that are kept back."""
        return [line for line in self.replies if not self.is_kept_back(line)]

    def see(self, line):
        """Takes a line of a reply, and tells it."""
        self.replies.append(line)
        self.worst.see(line)
        if not self.quiet and not self.is_kept_back(line):
            sys.stdout.write(line + "\n")
            sys.stdout.flush()
