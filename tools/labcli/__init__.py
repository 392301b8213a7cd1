"""A lab in a folder, by words at a shell, over the programs labctl and labview.

How a word is added
-------------------
1. `words.py` has a line for it in `GROUPS`: the module that does it, its forms, and a summary. Help, man page and completion are made
   from this table. No module of a word is imported until its word is used, so a module imports late what takes long. A word that changes
   something stands in `NOTED` too: then it is noted in the folder's log. `tools/lab_pages` writes the pages anew.

2. The module, below 300 lines and named by what it does, has

    def add(words):
        parser = words.add("hosts", json=True)          # one call for each word of the module
        parser.add_argument("exp", metavar="E", type=words.name)
        parser.add_argument("--ansible", action="store_true", help="an inventory of Ansible")

    def run(args, lab):
        ...
        return 0

   `words.add(WORD, takes="w", json=False, example=None)` gives an `argparse` parser, which has the usage and the summary of the
   table. `takes` names the common options beside -d that the word has: `n` a dry run, `v` turns, `m` memory, `w` waiting, `c` --cost.
   Converters for `type=` are `words.name`, `words.moment`, `words.seconds`. Options may stand anywhere in a command line.
   `add_argument` takes `completes="exp"`, `"machine"`, `"file"` or `"dir"`: how the completion fills that argument in. Where it isn't
   given, the metavar tells: E is an experiment, FILE and PLACE are files.

   `args` has what the parser gives, and `args.word`. `run` gives the exit status.

3. `lab` is a `Lab` of `lab.py`, over the folder that the command line names:

    lab.path                the folder as it was named; `lab.dry`, `lab.turns`, `lab.in_memory`, `lab.cost`, `lab.json`: the options
    lab.hold(new=False)     locks the folder as long as the process runs; new: it may be made. Gives a `Folder`, or nothing behind a server
    lab.copy()              a context: another `Lab` over a copy of the folder, which is gone behind it; what is done there changes nothing
    lab.ask(script)         the lines of the replies of labctl to a script (text or bytes), which aren't told; `Wrong` where it fails
    lab.do(command)         does a `Command` of `texts.py`: tells its replies as they come, and advice; gives the exit status
    lab.tell(lines)         tells replies, and keeps the last one for the log; with --json it only keeps them
    lab.look(*words)        runs labview over the folder, which locks and changes nothing: (status, lines)
    lab.shown(*names)       each experiment as a `Shown` of `shown.py`, of all where none is named
    lab.text()              the lines of the lab's own text
    lab.tables()            the set of the lines that its devices hold
    lab.off()               the names of the machines that are out of service

   Where `lab serve` stands, `hold`, `ask` and `do` go by it; a module needn't know.

4. A refusal is `raise Wrong(STATUS, "cause; what to do")` of `codes.py`, with REFUSED, USAGE, FOLDER or another status of there. It is told
   on standard error, with `lab: ` before it, in one line unless it quotes one. A file's text is read by `Text(path)` of `texts.py`. No word
   calls a shell, and no name of a file is taken for an option: it stands behind `--`, or has `./` before it, where another program is run.

5. `tools/lab_trials/` has a trial for each word and for each refusal: `tools/try_lab` finds its files `trial_*.py`.
"""
