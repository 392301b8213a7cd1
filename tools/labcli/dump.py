"""The word `dump`: a script that makes the lab anew."""


def add(words):
    """Adds the parser."""
    words.add("dump")


def run(args, lab):
    """Tells the script."""
    lab.hold()
    text = lab.text()
    print("\n".join([f"ptop {len(text)}", *text]))
    for exp in lab.shown():
        print("\n".join([f"create-top {exp.name} {len(exp.top)}", *exp.top]))
        if exp.phase == "moving":
            print(f"# {exp.name} is moving, and is left out")
        if exp.phase == "in":
            print("\n".join([f"swapin-with {exp.name} {len(exp.solution)}", *exp.solution]))
    return 0
