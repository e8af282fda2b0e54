# Completion of pit for bash. Written by tools/man_page.py from the help texts: change those, not this file.
_pit() {
    local word=${COMP_WORDS[COMP_CWORD]} before=${COMP_WORDS[COMP_CWORD-1]} words= files=
    if [ "$COMP_CWORD" = 1 ]; then
        words="check slopes solve shells report value schedule bound replay"
        case "$word" in -*) words="-h --help -V --version" ;; esac
    else
        case "${COMP_WORDS[1]} $before" in
        "check --prec") files=1 ;;
        "check --upit") files=1 ;;
        "check --blocks") files=1 ;;
        "check --settings") files=1 ;;
        "check --threads") files=1 ;;
        "slopes --blocks") files=1 ;;
        "slopes --pattern") words="five nine cone: settings" ;;
        "slopes --up") words="plus minus" ;;
        "slopes --settings") files=1 ;;
        "solve --prec") files=1 ;;
        "solve --upit") files=1 ;;
        "solve --blocks") files=1 ;;
        "solve --settings") files=1 ;;
        "solve --factor") : ;;
        "solve --method") words="auto pseudoflow push-relabel lock-free" ;;
        "solve --group") words="pair scaled worth" ;;
        "solve --steps") : ;;
        "solve --workers") : ;;
        "solve --threads") files=1 ;;
        "solve --trace") files=1 ;;
        "solve --room") : ;;
        "solve --periods") files=1 ;;
        "solve --uses") files=1 ;;
        "solve --pit") files=1 ;;
        "shells --prec") files=1 ;;
        "shells --blocks") files=1 ;;
        "shells --settings") files=1 ;;
        "shells --method") words="auto pseudoflow push-relabel" ;;
        "shells --steps") : ;;
        "shells --workers") : ;;
        "shells --by-block") files=1 ;;
        "report --prec") files=1 ;;
        "report --blocks") files=1 ;;
        "report --settings") files=1 ;;
        "report --method") words="auto pseudoflow push-relabel" ;;
        "report --steps") : ;;
        "report --workers") : ;;
        "report --by-block") files=1 ;;
        "value --prec") files=1 ;;
        "value --upit") files=1 ;;
        "value --blocks") files=1 ;;
        "value --settings") files=1 ;;
        "value --factor") : ;;
        "value --best") files=1 ;;
        "schedule --prec") files=1 ;;
        "schedule --upit") files=1 ;;
        "schedule --blocks") files=1 ;;
        "schedule --settings") files=1 ;;
        "schedule --periods") files=1 ;;
        "schedule --uses") files=1 ;;
        "schedule --factor") : ;;
        "schedule --best") files=1 ;;
        "schedule --pit") files=1 ;;
        "bound --prec") files=1 ;;
        "bound --upit") files=1 ;;
        "bound --blocks") files=1 ;;
        "bound --settings") files=1 ;;
        "bound --periods") files=1 ;;
        "bound --uses") files=1 ;;
        "bound --pit") files=1 ;;
        "replay --prec") files=1 ;;
        "replay --upit") files=1 ;;
        "replay --blocks") files=1 ;;
        "replay --settings") files=1 ;;
        "replay --factor") : ;;
        "replay --group") words="pair scaled worth" ;;
        *)
            case "${COMP_WORDS[1]}" in
            check) words="--prec --upit --blocks --settings --threads --verbose -h --help" files=1 ;;
            slopes) words="--blocks --pattern --up --settings --reduce --verbose -h --help" ;;
            solve) words="--prec --upit --blocks --settings --factor --method --group --steps --workers --threads --progress --verbose --trace --room --periods --uses --pit -h --help" ;;
            shells) words="--prec --blocks --settings --method --steps --workers --by-block --ways --progress --verbose -h --help" ;;
            report) words="--prec --blocks --settings --method --steps --workers --by-block --ways --progress --verbose -h --help" ;;
            value) words="--prec --upit --blocks --settings --factor --best --verbose -h --help" files=1 ;;
            schedule) words="--prec --upit --blocks --settings --periods --uses --factor --best --pit --verbose -h --help" files=1 ;;
            bound) words="--prec --upit --blocks --settings --periods --uses --pit --verbose -h --help" files=1 ;;
            replay) words="--prec --upit --blocks --settings --factor --group --verbose -h --help" files=1 ;;
            esac
            case "$word" in -*) files= ;; *) words= ;; esac ;;
        esac
    fi
    COMPREPLY=()
    [ -z "$words" ] || mapfile -t COMPREPLY < <(compgen -W "$words" -- "$word")
    if [ -n "$files" ]; then
        compopt -o filenames 2> /dev/null
        mapfile -t -O "${#COMPREPLY[@]}" COMPREPLY < <(compgen -f -- "$word")
    fi
}
complete -F _pit pit
