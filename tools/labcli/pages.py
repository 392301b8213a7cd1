"""The man page and the completion for bash, made from the table of words and the parsers of their modules."""
from .help import written
from .words import GROUPS, OPTIONS, WITH_VALUES, WORDS, module_of

HEAD = r""".\" Written by tools/lab_pages from the words of lab.
.TH LAB 1 "" "labctl" "User commands"
.SH NAME
lab \- a network testbed's lab in a folder, by words at a shell
.SH SYNOPSIS
.B lab
[\fB\-d\fR \fIDIR\fR] \fICOMMAND\fR ..
.SH DESCRIPTION
.B lab
does one command over a lab that
.BR labctl
keeps in a folder. It makes the script of the command, counts the lines of its blocks, drops a byte order mark and carriage returns,
and tells the replies as they come. Where a text is refused it shows the faulty line, and the manual's sentence of the kind of its fault.
Where a search gives up, other orders of the nodes are tried, and what is short is told."""

FOOT = r""".SH EXIT STATUS
.TP
.B 0
done
.TP
.B 10
refused: nothing has changed
.TP
.B 11
failed, and undone
.TP
.B 12
stuck, stopped or down, or devices differ from the lab or do not tell what they hold: see \(lqWhat to do when\(rq in the manual
.TP
.B 1 \fRto\fP 7
that of labctl, or, of view, of labview
.TP
.B 64
wrong words, or no such file
.TP
.B 70
a reply that lab doesn't know
.TP
.B 73
there is no such folder, or it can't be written
.TP
.B 75
another program is at work in the folder
.PP
Of a script the worst of all replies counts.
.SH ENVIRONMENT
.TP
.B LAB_DIR
the lab's folder, where no \-d is given
.TP
.B LABCTL\fR, \fPLABVIEW\fR, \fPTCLSH\fR, \fPLAB_MANUAL
the programs and the manual, where they stand elsewhere
.SH FILES
The folder has journal.a, journal.b and tables, and beside them log, off and, while it is served, socket. It is locked by
.BR flock (2)
while lab or ./run uses it; nothing is left of the lock. labctl by itself takes none.
.SH SEE ALSO
share/doc/labctl/MANUAL.md"""

COMPLETION = r"""# Completion of the words of lab, for bash. Written by tools/lab_pages from the words of lab.
_lab_view() {
    local beside
    beside=$(dirname -- "$(readlink -f -- "$(type -P -- "${COMP_WORDS[0]}")")")
    local path
    for path in "${LABVIEW:-}" "$beside/labview" "$beside"/../crates/labview/out/labview{,_fast} "$(type -P labview)"; do
        if [[ -f $path && -x $path ]]; then
            [[ $1 == /* ]] && "$path" "$1" 2> /dev/null || "$path" "./$1" 2> /dev/null
            return
        fi
    done
}
_lab() {
    local word=${COMP_WORDS[COMP_CWORD]} before=${COMP_WORDS[COMP_CWORD - 1]} command='' dir=${LAB_DIR:-lab} place=0 options='' k
    local -a kinds=()
    for ((k = 1; k < COMP_CWORD; k++)); do
        case ${COMP_WORDS[k]} in
            -d) dir=${COMP_WORDS[k + 1]}; ((k++)) ;;
            %s) ((k++)) ;;
            -?*) ;;
            *) if [[ -z $command ]]; then command=${COMP_WORDS[k]}; else ((place++)); fi ;;
        esac
    done
    case $command in
        '') options='%s' kinds=(word) ;;
%s
    esac
    local kind=none
    ((${#kinds[@]} == 0)) || kind=${kinds[place < ${#kinds[@]} ? place : ${#kinds[@]} - 1]}
    ((place < ${#kinds[@]})) || [[ $kind == *+ ]] || kind=none
    case $before in
        -d) kind=dir ;;
        --cost) kind='trunk pack' ;;
        *) [[ $word != -* ]] || kind=options ;;
    esac
    case ${kind%%+} in
        options) mapfile -t COMPREPLY < <(compgen -W "$options" -- "$word") ;;
        word) mapfile -t COMPREPLY < <(compgen -W '%s' -- "$word") ;;
        exp) mapfile -t COMPREPLY < <(compgen -W "$(_lab_view "$dir" | sed -n 's/^exp \([^ ]*\) .*/\1/p')" -- "$word") ;;
        machine) mapfile -t COMPREPLY < <(compgen -W "$(_lab_view "$dir" | sed -n 's/^machine \([^ ]*\) .*/\1/p')" -- "$word") ;;
        off) mapfile -t COMPREPLY < <(compgen -W "$(cut -f 2 -- "$dir/off" 2> /dev/null | sort -u)" -- "$word") ;;
        file) mapfile -t COMPREPLY < <(compgen -f -- "$word") ;;
        dir) mapfile -t COMPREPLY < <(compgen -d -- "$word") ;;
        none) COMPREPLY=() ;;
        *) mapfile -t COMPREPLY < <(compgen -W "$kind" -- "$word") ;;
    esac
}
complete -o filenames -F _lab lab
"""


def plain(text):
    """Gives a text as it stands in a man page."""
    text = text.replace("\\", "\\e").replace("-", "\\-")
    return f"\\&{text}" if text[:1] in (".", "'") else text


def man():
    """Gives the man page."""
    lines = [HEAD, ".SH COMMANDS"]
    for group, words in GROUPS.items():
        lines.append(f".SS {group}")
        for word in words:
            parser = module_of(word)[1]
            for number, form in enumerate(WORDS[word][1]):
                lines += [".TP" if number == 0 else ".TQ", f"\\fB{word}\\fR \\fI{plain(form)}\\fR" if form else f"\\fB{word}\\fR"]
            lines.append(plain(parser.summary))
            for action, _ in parser.noted:
                if action.help and not any(action.option_strings == list(names) for names, _ in OPTIONS.values()) and action.dest != "json":
                    lines += [".br", f"\\fB{plain(written(action))}\\fR: {plain(action.help)}"]
            if parser.example:
                lines += [".br", f"Example: {plain(parser.example)}"]
    lines += [".SH OPTIONS", "They may stand anywhere. Which words take which, lab help WORD tells."]
    for names, words in OPTIONS.values():
        value = words.get("metavar") or "|".join(words.get("choices", ()))
        lines += [".TP", f"\\fB{plain(names[0])}\\fR \\fI{plain(value)}\\fR" if value else f"\\fB{plain(names[0])}\\fR", plain(words["help"])]
    lines += [".TP", "\\fB\\-\\-json\\fR", "the reply as JSON, as the manual's schema has it", ".TP", "\\fB\\-\\-version\\fR", "which programs stand"]
    return "\n".join([*lines, FOOT, ""])


def kinds(parser):
    """Gives how the completion fills in the arguments of a word, in order; `+` behind one says that it may be there again."""
    found = []
    for action, kind in parser.noted:
        if not action.option_strings:
            choices = " ".join(action.choices) if action.choices else kind
            found.append(f'"{choices}{"+" if action.nargs in ("*", "+") else ""}"')
    return " ".join(found)


def completion():
    """Gives the completion."""
    cases, valued = [], {it for it in WITH_VALUES if it != "-d"}
    for word in WORDS:
        parser = module_of(word)[1]
        options = " ".join(name for action, _ in parser.noted for name in action.option_strings)
        cases.append(f"        {word}) options='{options}' kinds=({kinds(parser)}) ;;")
        valued |= {it for it in parser.valued if it != "-d"}
    first = " ".join([name for names, _ in OPTIONS.values() for name in names] + ["--help", "--version"])
    return COMPLETION % (" | ".join(sorted(valued)), first, "\n".join(cases), " ".join(WORDS))


PAGES = {"lab.1": man, "lab.bash": completion}
