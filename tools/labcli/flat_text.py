"""The flat text of what a file asks for: kept commands in the file's order, with names as the file has them."""
import re

from .timed import timed_texts

MOST_NAME = 26


def name_of(variable):
    """Gives the name that a variable gives, and None where it gives none here."""
    found = re.fullmatch(r"([A-Za-z0-9_]+)(?:\(([A-Za-z0-9_-]+)\))?", variable)
    name = found and (f"{found[1]}-{found[2]}" if found[2] else found[1])
    return name if name and len(name) <= MOST_NAME else None


def mended(variable):
    """Gives a name near to a variable that gives none: `big-lan` stays so, and `n(1,2)` becomes `n-1-2`."""
    name = re.sub(r"[^A-Za-z0-9_-]+", "-", variable.replace(")", "")).strip("-")
    return name[:MOST_NAME].rstrip("-") or "x"


def variable_of(name):
    """Gives the variable that gives a name."""
    head, sign, rest = name.partition("-")
    return f"{head}({rest})" if sign else head


def braced(word):
    """Gives a word as a Tcl text has it; one that no braces can hold is told as it can be."""
    if re.fullmatch(r"[A-Za-z0-9_.,:/@%+*=^~!?&<>-]+", word):
        return word
    depth = 0
    for sign in word:
        depth += {"{": 1, "}": -1}.get(sign, 0)
        if depth < 0:
            break
    return "{" + word + "}" if depth == 0 and "\\" not in word and "\n" not in word else "{" + re.sub(r"[{}\\\n]", "?", word) + "}"


class FlatText:
    """The lines of a flat text, and for each the line of the file that asks for it."""

    def __init__(self, asked, run_line):
        self.asked, self.lines, self.sources = asked, [], []
        self.things = {**asked.nodes, **asked.links}
        self.timed = timed_texts(asked)
        self.named_later = self.references()
        self.names, self.variables, self.bound = {}, {}, {}
        self.name_all()
        self.simulator = next(it for it in ("ns", "sim", "ns_", "simulator_") if it not in self.variables.values())
        self.add(0, "# Commands that labctl takes, in the order of the file that they were made of by lab flat.")
        for statement in asked.statements:
            self.state(statement)
        self.add(run_line, f"${self.simulator} run")

    def references(self):
        """Gives the things that a statement names, alone or in a list."""
        words = [word for statement in self.asked.statements for word in self.words_of(statement)]
        return {it for word in words for it in (word if isinstance(word, list) else [word])} & {*self.things}

    def words_of(self, statement):
        """Gives the words of a statement, with those of its event."""
        if statement.words[1:2] == ["at"]:
            return self.timed.get(statement.words[2], ("", []))[1]
        return statement.words

    def name_all(self):
        """Gives each thing its variable, and its name."""
        for kind in (self.asked.nodes, self.asked.links):
            taken = set()
            for thing in kind.values():
                if thing.variable is not None:
                    taken.add(self.name(thing, taken))

    def name(self, thing, taken):
        """Names a thing by its variable: as it is, or by the nearest name that is free."""
        name = name_of(thing.variable)
        if name and name not in taken:
            self.variables[thing.word] = thing.variable
        else:
            base = name or mended(thing.variable)
            name = next(it for it in self.tries(base) if it not in taken)
            self.variables[thing.word] = variable_of(name)
            if name != thing.variable:
                self.asked.change(thing.line, f"it is called {name}")
        self.names[thing.word] = name
        return name

    def tries(self, base):
        yield base
        for number in range(2, 10 ** 6):
            yield f"{base[:MOST_NAME - len(str(number)) - 1]}_{number}"

    def add(self, source, line):
        self.lines.append(line)
        self.sources.append(source)

    def state(self, statement):
        """Writes a statement."""
        made = statement.made
        if statement.words[1:2] == ["at"] and statement.words[2] not in self.timed:
            return
        text = self.text(statement)
        if statement.words == ["new", "Simulator"]:
            text = f"set {self.simulator} [{text}]"
        elif made and made.word in self.names:
            self.free(made, statement.line)
            text = f"set {self.variables[made.word]} [{text}]"
        elif made and made.word in self.named_later:
            text = f"append {self.holder(made)} [{text}]"
        self.add(statement.line, text)

    def holder(self, made):
        """Gives a variable for a thing that no variable of the file names. (`append` gives no name.)"""
        variable = self.called(made.word).replace(".", "_")
        while variable in self.variables.values():
            variable += "_"
        self.variables[made.word] = variable
        return variable

    def called(self, word):
        """Gives the name of a thing."""
        if word in self.names:
            return self.names[word]
        kind = self.asked.nodes if word in self.asked.nodes else self.asked.links
        return f"tb.{'n' if word in self.asked.nodes else 'l'}{list(kind).index(word) + 1}"

    def free(self, made, line):
        """Keeps a thing of the other kind that has the variable, before that is set anew."""
        variable = self.variables[made.word]
        before = self.bound.get(variable)
        if before:
            held = next(it for it in (f"kept_{number}" for number in range(1, 10 ** 6)) if it not in self.variables.values())
            self.add(line, f"set {held} ${variable}")
            self.variables[before] = held
        self.bound[variable] = made.word

    def text(self, statement):
        """Gives a statement as a text."""
        words = statement.words
        if words[1:2] == ["at"]:
            time, event = self.timed[words[2]]
            return f'${self.simulator} at {braced(time)} "{" ".join(self.word(it) for it in event)}"'
        return " ".join(self.word(it) for it in words)

    def word(self, word):
        """Gives a word as a text."""
        if isinstance(word, list):
            return '"' + " ".join(self.word(it) for it in word) + '"'
        if word == ":ns":
            return f"${self.simulator}"
        if word in self.things:
            return f"${self.variables[word]}"
        return braced(word)

    def block(self):
        return "".join(f"{line}\n" for line in self.lines).encode()
