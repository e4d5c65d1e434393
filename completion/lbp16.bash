# Completion of lbp16 for bash.

_lbp16() {
    local word=${COMP_WORDS[COMP_CWORD]} before=${COMP_WORDS[COMP_CWORD - 1]} part=${COMP_WORDS[1]}
    local parts="asm dis compile tight fix packets why judge guard either panel serve play"
    local options="--help"
    COMPREPLY=()
    if ((COMP_CWORD == 1)); then
        mapfile -t COMPREPLY < <(compgen -W "$parts --help --version" -- "$word")
        return
    fi
    case $before in
    -o | --output | --check | --log | --store | --pointers | --save | --save-start)
        compopt -o filenames
        mapfile -t COMPREPLY < <(compgen -f -- "$word")
        return
        ;;
    --to)
        mapfile -t COMPREPLY < <(compgen -A hostname -- "$word")
        return
        ;;
    --protect)
        compopt -o nospace
        mapfile -t COMPREPLY < <(compgen -W "0: 2: 6: 7:" -- "$word")
        return
        ;;
    --packet | --address | --port | --timeout | --tries)
        return
        ;;
    esac
    case $part in
    asm | dis) options="-o --output --json --help" ;;
    compile) options="-o --output --text --list --json --help" ;;
    tight) options="-o --output --check --text --list --json --help" ;;
    fix) options="-o --output --strict --log --json --help" ;;
    packets) options="-o --output --raw --pointers --json --help" ;;
    why) options="--raw --hex --packet --store --pointers --json --help" ;;
    judge) options="--store --pointers --json --help" ;;
    guard) options="--protect --text --list --json --help" ;;
    either) options="--text --list --json --help" ;;
    panel) options="--json --help" ;;
    serve) options="--address --port --store --save --save-start --protect --hostmot2 --log --quiet --help" ;;
    play) options="--to -o --output --timeout --tries --store --pointers --dry-run --json --help" ;;
    esac
    case $word in
    -*) mapfile -t COMPREPLY < <(compgen -W "$options" -- "$word") ;;
    *)
        compopt -o filenames
        mapfile -t COMPREPLY < <(compgen -f -- "$word")
        ;;
    esac
}

complete -F _lbp16 lbp16
