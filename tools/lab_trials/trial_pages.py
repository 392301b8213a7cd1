"""Help, page and completion; the examples of the manual."""
import re

from labcli import pages, values, words

from .rooms import DEMOS, TOP, Trial, block, commands_of, read


def example_texts(words):
    """Gives the commands that put an example of the manual's first table where it belongs."""
    ptop, top = [blocks[0] for _, blocks in commands_of(read("demo/first.lab")) if blocks][:2]
    kind, _, line = words.partition(": ")
    if kind == "ptop":
        return block("ptop", f"{ptop}{line}\n")
    return block("ptop", ptop) + block("create-top A", f"{top}{line}\n")


def network(line):
    """Gives a script that makes an experiment of an NS text with this line before its last one."""
    text = "set ns [new Simulator]\nset a [$ns node]\nset b [$ns node]\nset i 0\nset l [$ns duplex-link $a $b 100Mb 0ms DropTail]\n"
    return block("ptop", "node s1 switch\n") + block("create A", f"{text}{line}\n$ns run\n")


def last_kind(room, script):
    """Gives the kind of the last reply, if it tells a fault, else its first word."""
    words = (room.labctl(script).stdout.splitlines() or [""])[-1].split(" ")
    return words[3] if words[0] == "bad" else words[0]


def unquoted(cell):
    """Gives the code of a cell, if it is code alone but for the word of its text."""
    found = re.fullmatch(r"(?:(ptop|top): )?`(.*)`", cell)
    return found and (found[1], found[2])


class Pages(Trial):
    """Documents, as the programs do."""

    def test_pages(self):
        """The page and the completion are those that the words make, and the manual has each word, option and value."""
        room = self.room
        ran = room.run(f"{TOP}/tools/lab_pages", "--check")
        room.same("up to date", (ran.returncode, ran.stderr), (0, ""))
        for name, page in pages.PAGES.items():
            room.same(f"each word in {name}", [word for word in words.WORDS if word not in re.findall(r"[a-z]+", page())], [])
        manual = read("docs/MANUAL.md").partition("\n## At a shell\n")[2].partition("\n## A lab of your own")[0]
        told = set(re.findall(r"`lab (?:-\w )?([a-z]+)", manual))
        room.same("words of the manual", (set(words.WORDS) - told, told - set(words.WORDS)), (set(), set()))
        options = {name for names, _ in words.OPTIONS.values() for name in names} | {"--json", "--version"}
        room.same("options of the manual", sorted(it for it in options if f"`{it}" not in manual and f"lab {it}" not in manual), [])
        having = [word for word in words.WORDS if any(action.dest == "json" for action, _ in words.module_of(word)[1].noted) and word in values.FORMS]
        room.same("values of the manual", [word for word in having if f"| `{word}` |" not in manual], [])

    def test_readme(self):
        """README's lines of lab give the replies that stand there."""
        room, readme = self.room, read("README.md")
        session = re.search(r"```\n(\$ tools/lab .*?)```", readme, re.S)[1]
        for part in session.split("$ ")[1:]:
            line, _, wanted = part.partition("\n")
            ran = room.run("bash", "-c", f"cd '{TOP}' && {line.replace('> lab/', f'> {room.path}/')}", LAB_DIR=f"{room.path}/lab")
            room.same(line, (ran.returncode, ran.stdout), (0, wanted))

    def test_kinds(self):
        """Each example of a fault has it, and each line to write in place of a line of Emulab is taken."""
        room = self.room
        manual = read("docs/MANUAL.md")
        tried = 0
        for kind, cell in re.findall(r"^\| `([\w-]+)` \| .*? \| ([^|]*) \|$", manual.partition("\n### Kinds of faults\n")[2], re.M):
            example = unquoted(cell)
            if example:
                tried += 1
                script = example_texts(": ".join(example)) if example[0] else network(example[1])
                room.same(f"{kind}: {cell}", last_kind(room, script), kind)
        section = manual.partition("\n## From Emulab\n")[2].partition("\n## ")[0]
        for line, kind, cell in re.findall(r"^\| `(.*?)` \(`([\w-]+)`\) \| (.*) \|$", section, re.M):
            tried += 1
            room.same(line, last_kind(room, network(line)), kind)
            written = re.match(r"`(.*?)`", cell)
            if written:
                room.same(written[1], last_kind(room, network(written[1])), "created")
        room.same("their number", tried > 50, True)

    def test_worded_kinds(self):
        """The faults whose examples the manual tells by words."""
        room = self.room
        text = "\n".join(["set ns [new Simulator]", "set x aa"] + ["append x $x"] * 17 + ["$ns run"]) + "\n"
        deep = "set x " + "[expr " * 33 + "1" + "]" * 33
        machines = "node s1 switch\n" + "".join(f"node pc{n} pc:1\n" for n in range(1025))
        for kind, script in (
            ("limit", block("ptop", machines)), ("empty", block("ptop", "node s1 switch\n") + "create-top A 0\n"),
            ("deep", network(deep)), ("long", block("ptop", "node s1 switch\n") + block("create A", text)),
            ("not-run", block("ptop", "node s1 switch\n") + block("create A", "set ns [new Simulator]\n")),
            ("empty", block("ptop", "node s1 switch\n") + block("create A", "set ns [new Simulator]\n$ns run\n")),
        ):
            room.same(f"{kind} by words", last_kind(room, script), kind)

    def test_manual(self):
        """The demos stand in the manual as they are, with their replies, and in the rows; the session of the first lab is as told."""
        room = self.room
        manual = read("docs/MANUAL.md")
        for demo in DEMOS:
            script = read(f"demo/{demo}.lab")
            behind = manual.partition(f"`demo/{demo}.lab`:\n\n```\n")[2]
            told, _, behind = behind.partition("```\n\nreplies\n\n```\n")
            room.same(f"{demo} in the manual", told, script)
            room.same(f"the replies of {demo} in the manual", behind.partition("```\n")[0], room.labctl(script).stdout)
            room.same(f"{demo} among the rows", read(f"crates/rows/data/demo/{demo}.lab"), script)
        for file in ("rack.ptop", "ring.ns"):
            room.same(f"{file} in the manual", f"```\n{read(f'demo/{file}')}```\n" in manual, True)
        summary = manual.partition("So `labctl --gen 1` writes\n\n```\n")[2].partition("```")[0]
        room.same("the manual's generated run", summary, room.labctl("", "--gen", "1").stdout)
        script, _, behind = manual.partition("with code 0. The script\n\n```\n")[2].partition("```\n\n")
        ran = room.labctl(script)
        told = f"replies `{ran.stdout.strip()}` and ends with code {ran.returncode} and `{ran.stderr.strip()}`"
        room.same("the manual's cut script", behind.startswith(told), True)
        session = manual.partition("\nAt a shell:\n\n```\n")[2].partition("```\n")[0]
        for part in session.split("$ lab ")[1:]:
            words, _, wanted = part.partition("\n")
            words = [f"{TOP}/{word}" if word.startswith("demo/") else word for word in words.split(" ")]
            room.same(f"the manual's {words}", room.run(*words, folder="lab").stdout, wanted)
