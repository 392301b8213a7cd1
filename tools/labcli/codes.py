"""Exit statuses, the status of each reply, and the one exception by which a word is refused."""

DONE, REFUSED, UNDONE, STUCK, USAGE, UNKNOWN, FOLDER, IN_USE = 0, 10, 11, 12, 64, 70, 73, 75

# Each reply by its first word. Replies that tell more by a further word stand in `code_of`.
CODES = {
    **dict.fromkeys("lab created show least local in out more deleted exp free planned played".split(), DONE),
    **dict.fromkeys("no exists unknown busy not is bad infeasible none gave full wait".split(), REFUSED),
    **dict.fromkeys("trouble failed".split(), UNDONE),
    **dict.fromkeys("down stopped unread".split(), STUCK),
}
# Replies that go on up to a line `end E`.
LISTS = ("show", "least", "local")


class Wrong(Exception):
    """A refusal: it is told in place of a run, with the exit status."""

    def __init__(self, status, told):
        super().__init__(told)
        self.status = status


def code_of(line):
    """Gives the exit status of a reply's first line."""
    words = line.split(" ")
    if words[:3] == ["lab", "is", "set"]:
        return REFUSED
    if words[0] == "failed" and words[2:3] == ["stuck"]:
        return STUCK
    if words[0] == "recovered":
        return STUCK if words[2:] != ["0"] else DONE
    if words[0] == "audit":
        return STUCK if words[1:] != ["0"] else DONE
    return CODES.get(words[0], UNKNOWN)


class Worst:
    """The worst status of the replies so far."""

    def __init__(self):
        self.status = DONE
        self.within = False
        self.differences = 0

    def see(self, line):
        if self.within:
            self.within = not line.startswith("end ")
        elif self.differences:
            self.differences -= 1
        else:
            self.status = max(self.status, code_of(line))
            words = line.split(" ")
            self.within = words[0] in LISTS
            self.differences = int(words[1]) if words[0] == "audit" else 0
