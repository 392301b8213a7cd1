"""The word `help`, made from the table of words and the parsers of their modules."""
from .codes import USAGE, Wrong
from .words import GROUPS, OPTIONS, WORDS, module_of, usage

HEAD = "A lab in a folder, by words at a shell, over the program labctl."
FOOT = """A folder serves one program at a time: it is locked (flock) meanwhile.

exit status: 0 done; 10 refused; 11 failed and undone; 12 stuck, stopped,
down, or devices that differ or tell nothing; the worst of all replies of a
script. 1 to 6: that of labctl; of view 1 to 7: that of labview. 64 wrong
words or no such file; 73 no such folder; 75 the folder is in use."""


def add(words):
    """Adds the parser."""
    words.add("help", takes="").add_argument("about", metavar="WORD", nargs="?")


def run(args, lab):
    """Tells of a word, or of all."""
    return tell([args.about] if args.about else [])


def page():
    """Gives the lines of the help of all words."""
    lines = [HEAD, "", "usage: lab [-d DIR] COMMAND ..; lab help COMMAND tells of one"]
    for group, words in GROUPS.items():
        lines += ["", f"{group}:"]
        for word, (_, forms, summary) in words.items():
            for form in forms:
                head = f"{word} {form}".strip()
                lines.append(f"  {head:<26} {summary if form == forms[0] else ''}".rstrip())
    lines += ["", "Options, which may stand anywhere:"]
    for names, words in OPTIONS.values():
        head = " ".join([*names, words.get("metavar") or "|".join(words.get("choices", ()))]).strip()
        lines.append(f"  {head:<26} {words['help']}")
    return [*lines, "", FOOT]


def written(action):
    """Gives how an option or an argument is written."""
    if not action.option_strings:
        return action.metavar
    value = action.metavar or "|".join(action.choices or ())
    return " ".join([", ".join(action.option_strings), *([value] if action.nargs != 0 and value else [])])


def about(word):
    """Gives the lines of the help of a word."""
    parser = module_of(word)[1]
    lines = [parser.form, "", f"{word}: {parser.summary}"]
    told = [(written(action), action.help) for action, _ in parser.noted if action.help]
    lines += [""] if told else []
    lines += [f"  {head:<18} {text}" for head, text in told]
    return [*lines, *(["", f"example: {parser.example}"] if parser.example else [])]


def tell(words):
    """Tells the help of the first word among these, or of all."""
    words = [it for it in words if not it.startswith("-")]
    known = [it for it in words if it in WORDS]
    if words and not known:
        raise Wrong(USAGE, usage(words[-1]))
    print("\n".join(about(known[0]) if known else page()))
    return 0


def versions():
    """Tells of each program which one it is."""
    from .versions import told
    print("\n".join(told()))
    return 0
