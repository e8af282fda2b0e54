# Completion of pitplan for bash. Written by tools/man_page.py from the help texts: change those, not this file.
_pitplan() {
    local word=${COMP_WORDS[COMP_CWORD]} before=${COMP_WORDS[COMP_CWORD-1]} words= files=
    if [ "$COMP_CWORD" = 1 ]; then
        words="init check build slopes shells plot page phases schedule export compare risk vary report submit status task bundle schema desk doctor"
        case "$word" in -*) words="--version --no-wait --within --install-completion --show-completion -h --help" ;; esac
    else
        case "${COMP_WORDS[1]} $before" in
        "init --study") files=1 ;;
        "init -c"|"init --column") words="id x y z dx dy dz tonnes density rock class topography ore" ;;
        "init --encoding") : ;;
        "slopes --every") : ;;
        "shells --workers") : ;;
        "plot --bench") : ;;
        "plot --north") : ;;
        "plot --east") : ;;
        "plot --row") : ;;
        "plot --column") : ;;
        "plot --colour") : ;;
        "plot --pit") : ;;
        "plot --exaggerate") : ;;
        "page --phases") : ;;
        "page --design") files=1 ;;
        "page --layer") : ;;
        "page --column") : ;;
        "page --value") : ;;
        "page --factor") : ;;
        "page --title") : ;;
        "phases --mining-width") : ;;
        "phases --widen") : ;;
        "schedule --gap") : ;;
        "schedule --minutes") : ;;
        "schedule --mining-width") : ;;
        "export --to") : ;;
        "export --factors") : ;;
        "export --phases") : ;;
        "export --columns") : ;;
        "export --crs") : ;;
        "compare --ids") files=1 ;;
        "compare --column") : ;;
        "compare --value") : ;;
        "compare --surface") files=1 ;;
        "compare --layer") : ;;
        "compare --factor") : ;;
        "compare --bench") : ;;
        "risk --realisations") files=1 ;;
        "risk --factors") : ;;
        "risk --metal") : ;;
        "risk --gap") : ;;
        "risk --minutes") : ;;
        "risk --workers") : ;;
        "vary --factor") : ;;
        "vary --gap") : ;;
        "vary --minutes") : ;;
        "vary --workers") : ;;
        "report --phases") : ;;
        "report --title") : ;;
        "submit --engine") words="local slurm snakemake" ;;
        "submit --workers") : ;;
        "submit --minutes") : ;;
        "submit --at-once") : ;;
        "desk --port") : ;;
        "desk --host") : ;;
        "desk --name") files=1 ;;
        "desk --upload-limit") : ;;
        *)
            case "${COMP_WORDS[1]}" in
            init) words="--study -c --column --encoding --force -h --help" files=1 ;;
            check) words="--watch -h --help" files=1 ;;
            build) words="-h --help" files=1 ;;
            slopes) words="--every -h --help" files=1 ;;
            shells) words="--workers --certificates -h --help" files=1 ;;
            plot) words="--bench --north --east --row --column --colour --pit --exaggerate -h --help" files=1 ;;
            page) words="--phases --design --layer --column --value --factor --schedule --title -h --help" files=1 ;;
            phases) words="--mining-width --widen -h --help" files=1 ;;
            schedule) words="--gap --minutes --mining-width -h --help" files=1 ;;
            export) words="--to --factors --phases --schedule --columns --whole --cut-corners --crs -h --help" files=1 ;;
            compare) words="--ids --column --value --surface --layer --factor --bench -h --help" files=1 ;;
            risk) words="--realisations --factors --metal --schedule --gap --minutes --later --workers -h --help" files=1 ;;
            vary) words="--factor --schedule --gap --minutes --later --workers -h --help" files=1 ;;
            report) words="--pdf --xlsx --phases --title -h --help" files=1 ;;
            submit) words="--engine --dry --workers --minutes --at-once --again -h --help" files=1 ;;
            status) words="-h --help" files=1 ;;
            task) words="-h --help" files=1 ;;
            bundle) words="-h --help" files=1 ;;
            schema) words="-h --help" ;;
            desk) words="--port --host --name --upload-limit -h --help" files=1 ;;
            doctor) words="-h --help" ;;
            esac
            case "$word" in -*) files= ;; *) words= ;; esac ;;
        esac
    fi
    COMPREPLY=()
    [ -z "$words" ] || mapfile -t COMPREPLY < <(compgen -W "$words" -- "$word")
    if [ -n "$files" ]; then
        compopt -o filenames 2> /dev/null
        mapfile -t -O "${#COMPREPLY[@]}" COMPREPLY < <(compgen -f -- "$word")
    fi
}
complete -F _pitplan pitplan
