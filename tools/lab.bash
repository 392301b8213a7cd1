# Completion of the words of lab, for bash. Written by tools/lab_pages from the words of lab.
_lab_view() {
    local beside
    beside=$(dirname -- "$(readlink -f -- "$(type -P -- "${COMP_WORDS[0]}")")")
    local path
    for path in "${LABVIEW:-}" "$beside/labview" "$beside"/../crates/labview/out/labview{,_fast} "$(type -P labview)"; do
        if [[ -f $path && -x $path ]]; then
            [[ $1 == /* ]] && "$path" "$1" 2> /dev/null || "$path" "./$1" 2> /dev/null
            return
        fi
    done
}
_lab() {
    local word=${COMP_WORDS[COMP_CWORD]} before=${COMP_WORDS[COMP_CWORD - 1]} command='' dir=${LAB_DIR:-lab} place=0 options='' k
    local -a kinds=()
    for ((k = 1; k < COMP_CWORD; k++)); do
        case ${COMP_WORDS[k]} in
            -d) dir=${COMP_WORDS[k + 1]}; ((k++)) ;;
            --cost | --of | -w) ((k++)) ;;
            -?*) ;;
            *) if [[ -z $command ]]; then command=${COMP_WORDS[k]}; else ((place++)); fi ;;
        esac
    done
    case $command in
        '') options='-d -n -v -m -w --cost --help --version' kinds=(word) ;;
        set) options='-d -n -w --json' kinds=("file") ;;
        status) options='-d -n -w --json' kinds=() ;;
        map) options='-d -w --json' kinds=() ;;
        view) options='-d --check --records --svg' kinds=() ;;
        grow) options='-d -w' kinds=("file" "dir") ;;
        audit) options='-d -n -w --json' kinds=() ;;
        recover) options='-d -n -w --json' kinds=() ;;
        off) options='-d -w --json' kinds=("machine" "none+") ;;
        on) options='-d -w' kinds=("off") ;;
        log) options='-d --json -f --of' kinds=("none") ;;
        serve) options='-d -w --cost --group' kinds=() ;;
        net) options='-d -w --frames' kinds=("up test sh down" "machine" "none+") ;;
        dump) options='-d -w' kinds=() ;;
        check) options='-d' kinds=("file") ;;
        flat) options='-d --top' kinds=("file") ;;
        create) options='-d -n -w --json --tcl' kinds=("exp" "file") ;;
        solve) options='-d -n -w --cost --json' kinds=("exp" "none") ;;
        in) options='-d -n -v -w --cost --json' kinds=("exp" "file") ;;
        modify) options='-d -n -v -w --cost --json' kinds=("exp" "file" "file") ;;
        play) options='-d -n -w' kinds=("exp" "file" "none" "none") ;;
        out) options='-d -n -v -w --json' kinds=("exp") ;;
        delete) options='-d -n -w --json' kinds=("exp") ;;
        show) options='-d -n -w --json' kinds=("exp") ;;
        hosts) options='-d -w --ansible' kinds=("exp") ;;
        graph) options='-d -w --dot' kinds=("exp") ;;
        run) options='-d -n -m -w --cost' kinds=("file") ;;
        batch) options='-d -n -w --cost --json' kinds=("none" "file") ;;
        help) options='-d' kinds=("word") ;;
    esac
    local kind=none
    ((${#kinds[@]} == 0)) || kind=${kinds[place < ${#kinds[@]} ? place : ${#kinds[@]} - 1]}
    ((place < ${#kinds[@]})) || [[ $kind == *+ ]] || kind=none
    case $before in
        -d) kind=dir ;;
        --cost) kind='trunk pack' ;;
        *) [[ $word != -* ]] || kind=options ;;
    esac
    case ${kind%+} in
        options) mapfile -t COMPREPLY < <(compgen -W "$options" -- "$word") ;;
        word) mapfile -t COMPREPLY < <(compgen -W 'set status map view grow audit recover off on log serve net dump check flat create solve in modify play out delete show hosts graph run batch help' -- "$word") ;;
        exp) mapfile -t COMPREPLY < <(compgen -W "$(_lab_view "$dir" | sed -n 's/^exp \([^ ]*\) .*/\1/p')" -- "$word") ;;
        machine) mapfile -t COMPREPLY < <(compgen -W "$(_lab_view "$dir" | sed -n 's/^machine \([^ ]*\) .*/\1/p')" -- "$word") ;;
        off) mapfile -t COMPREPLY < <(compgen -W "$(cut -f 2 -- "$dir/off" 2> /dev/null | sort -u)" -- "$word") ;;
        file) mapfile -t COMPREPLY < <(compgen -f -- "$word") ;;
        dir) mapfile -t COMPREPLY < <(compgen -d -- "$word") ;;
        none) COMPREPLY=() ;;
        *) mapfile -t COMPREPLY < <(compgen -W "$kind" -- "$word") ;;
    esac
}
complete -o filenames -F _lab lab
