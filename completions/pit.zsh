#compdef pit
# Completion of pit for zsh. Written by tools/man_page.py from the help texts: change those, not this file.
_pit() {
    local -a commands
    commands=(
        'check:Checks a certificate'
        'slopes:Writes the predecessors of each block, by a slope pattern'
        'solve:Finds the best pit and writes its certificate'
        'shells:Finds the shells'
        'report:Prints the bench table'
        'value:Judges a design'
        'schedule:Judges a schedule'
        'bound:Bounds the worth of every feasible schedule, by a certificate of blocks and periods'
        'replay:Repeats a run of push-relabel step by step from its trace'
    )
    if (( CURRENT == 2 )); then
        [[ $words[2] == -* ]] && _arguments -S '-h[Print help]' '--help[Print help]' '-V[Print version]' '--version[Print version]' || _describe -t commands command commands
        return
    fi
    local command=$words[2]
    shift words
    (( CURRENT-- ))
    case $command in
        check) _arguments '--prec[The predecessors of each block]:prec:_files' \
            '--upit[What each block is worth]:upit:_files' \
            '--blocks[The blocks with the columns that the settings name]:blocks:_files' \
            '--settings[The columns of revenues and costs, or of a mill'\''s charges or several ways to treat blocks]:settings:_files' \
            '--threads[How many threads read --prec and --upit at once, from 1 to 64 (by default as many as there are processors, at most 8, and 1 where a text has less than 2 MB)]:threads:_files' \
            '--verbose[Reports on standard error which file failed, and the system'\''s reason]' \
            '-h[Print help (see a summary with '\''-h'\'')]' '--help[Print help (see a summary with '\''-h'\'')]' '*:file:_files' ;;
        slopes) _arguments '--blocks[Where the blocks are]:blocks:_files' \
            '--pattern[Which blocks above a block are its predecessors]:pattern:(five nine cone\: settings)' \
            '--up[Which way is up]:up:(plus minus)' \
            '--settings[The file that lists the offsets, a TOML text]:settings:_files' \
            '--reduce[Leaves out each predecessor that others imply]' \
            '--verbose[Reports on standard error which file failed, and the system'\''s reason]' \
            '-h[Print help (see a summary with '\''-h'\'')]' '--help[Print help (see a summary with '\''-h'\'')]' ;;
        solve) _arguments '--prec[The predecessors of each block]:prec:_files' \
            '--upit[What each block is worth]:upit:_files' \
            '--blocks[The blocks with the columns that the settings name]:blocks:_files' \
            '--settings[The columns of revenues and costs, or of a mill'\''s charges or several ways to treat blocks]:settings:_files' \
            '--factor[The share of the revenues that counts, in thousandths, from 0 to 10000]:factor: ' \
            '--method[Which solver computes the flow]:method:(auto pseudoflow push-relabel lock-free)' \
            '--group[What the flow counts]:group:(pair scaled worth)' \
            '--steps[The most steps of push-relabel, or turns of pseudoflow, from 1 to 1099511627776 (by default 1000000000 steps and 1099511627776 turns); without --method it chooses push-relabel]:steps: ' \
            '--workers[The threads of push-relabel, from 1 to 64 (1 by default), which share one lock]:workers: ' \
            '--threads[How many threads read --prec and --upit at once, from 1 to 64 (by default as many as there are processors, at most 8, and 1 where a text has less than 2 MB)]:threads:_files' \
            '--progress[Reports on standard error, once a second, how far the run is]' \
            '--verbose[Reports on standard error which file failed, and the system'\''s reason]' \
            '--trace[Writes each step of push-relabel'\''s run to this file, and replaces what is in it]:trace:_files' \
            '--room[The most steps of a trace, from 1 to 16777216 (1048576 by default); no effect without --trace]:room: ' \
            '--periods[Solves the mine of blocks and periods]:periods:_files' \
            '--uses[With --periods, the blocks with the columns of what they use]:uses:_files' \
            '--pit[A certificate of a best pit of the mine, at the same price, as `pit solve` writes it and `pit check` judges it]:pit:_files' \
            '-h[Print help (see a summary with '\''-h'\'')]' '--help[Print help (see a summary with '\''-h'\'')]' ;;
        shells) _arguments '--prec[The predecessors of each block]:prec:_files' \
            '--blocks[The blocks with the columns that the settings name]:blocks:_files' \
            '--settings[The columns of revenues and costs, or of a mill'\''s charges or several ways to treat blocks]:settings:_files' \
            '--method[Which solver computes the flows]:method:(auto pseudoflow push-relabel)' \
            '--steps[The most steps of push-relabel, or turns of pseudoflow, from 1 to 1099511627776 (by default 1000000000 steps and 1099511627776 turns); without --method it chooses push-relabel]:steps: ' \
            '--workers[How many factors pseudoflow solves at a time, or the threads of push-relabel, from 1 to 64 (1 by default)]:workers: ' \
            '--by-block[Writes the shell of each block to this file, and replaces what is in it]:by-block:_files' \
            '--ways[Adds to the file of --by-block which way each block goes at the factor of the report (the key `report`, or without it the last of `factors`)\: lines block,shell,way, the way empty for waste and outside the pits]' \
            '--progress[Reports on standard error each factor at which a pit is proved, and how far a run of push-relabel is]' \
            '--verbose[Reports on standard error which file failed, and the system'\''s reason]' \
            '-h[Print help (see a summary with '\''-h'\'')]' '--help[Print help (see a summary with '\''-h'\'')]' ;;
        report) _arguments '--prec[The predecessors of each block]:prec:_files' \
            '--blocks[The blocks with the columns that the settings name]:blocks:_files' \
            '--settings[The columns of prices, as for shells, and of tonnes]:settings:_files' \
            '--method[Which solver computes the flows]:method:(auto pseudoflow push-relabel)' \
            '--steps[The most steps of push-relabel, or turns of pseudoflow, from 1 to 1099511627776 (by default 1000000000 steps and 1099511627776 turns); without --method it chooses push-relabel]:steps: ' \
            '--workers[How many factors pseudoflow solves at a time, or the threads of push-relabel, from 1 to 64 (1 by default)]:workers: ' \
            '--by-block[Writes the shell of each block to this file, and replaces what is in it]:by-block:_files' \
            '--ways[Adds the tonnes that go each way to treat a block, at the factor of the worths]' \
            '--progress[Reports on standard error each factor at which a pit is proved, and how far a run of push-relabel is]' \
            '--verbose[Reports on standard error which file failed, and the system'\''s reason]' \
            '-h[Print help (see a summary with '\''-h'\'')]' '--help[Print help (see a summary with '\''-h'\'')]' ;;
        value) _arguments '--prec[The predecessors of each block]:prec:_files' \
            '--upit[What each block is worth]:upit:_files' \
            '--blocks[The blocks with the columns that the settings name]:blocks:_files' \
            '--settings[The columns of revenues and costs, or of a mill'\''s charges or several ways to treat blocks]:settings:_files' \
            '--factor[The share of the revenues that counts, in thousandths, from 0 to 10000, with --blocks and no --upit]:factor: ' \
            '--best[A certificate of the best pit, with which the design is compared]:best:_files' \
            '--verbose[Reports on standard error which file failed, and the system'\''s reason]' \
            '-h[Print help (see a summary with '\''-h'\'')]' '--help[Print help (see a summary with '\''-h'\'')]' '*:file:_files' ;;
        schedule) _arguments '--prec[The predecessors of each block]:prec:_files' \
            '--upit[What each block is worth]:upit:_files' \
            '--blocks[The blocks with the columns that the settings name]:blocks:_files' \
            '--settings[The columns of revenues and costs, or of a mill'\''s charges or several ways to treat blocks]:settings:_files' \
            '--periods[What periods weigh, which columns have what blocks use of resources, and what each period has]:periods:_files' \
            '--uses[The blocks with the columns of what they use]:uses:_files' \
            '--factor[The share of the revenues that counts, in thousandths, from 0 to 10000, with --blocks and no --upit]:factor: ' \
            '--best[A certificate of blocks and periods, which bounds the worth of every feasible schedule]:best:_files' \
            '--pit[A certificate of a best pit of the mine, at the same price, as `pit solve` writes it and `pit check` judges it]:pit:_files' \
            '--verbose[Reports on standard error which file failed, and the system'\''s reason]' \
            '-h[Print help (see a summary with '\''-h'\'')]' '--help[Print help (see a summary with '\''-h'\'')]' '*:file:_files' ;;
        bound) _arguments '--prec[The predecessors of each block]:prec:_files' \
            '--upit[What each block is worth]:upit:_files' \
            '--blocks[The blocks with the columns that the settings name]:blocks:_files' \
            '--settings[The columns of revenues and costs, or of a mill'\''s charges or several ways to treat blocks]:settings:_files' \
            '--periods[What periods weigh, which columns have what blocks use of resources, what each period has, and the multipliers]:periods:_files' \
            '--uses[The blocks with the columns of what they use]:uses:_files' \
            '--pit[A certificate of a best pit of the mine, at the same price, as `pit solve` writes it and `pit check` judges it]:pit:_files' \
            '--verbose[Reports on standard error which file failed, and the system'\''s reason]' \
            '-h[Print help (see a summary with '\''-h'\'')]' '--help[Print help (see a summary with '\''-h'\'')]' '*:file:_files' ;;
        replay) _arguments '--prec[The predecessors of each block]:prec:_files' \
            '--upit[What each block is worth]:upit:_files' \
            '--blocks[The blocks with the columns that the settings name]:blocks:_files' \
            '--settings[The columns of revenues and costs, or of a mill'\''s charges or several ways to treat blocks]:settings:_files' \
            '--factor[The share of the revenues that counts, in thousandths, from 0 to 10000]:factor: ' \
            '--group[What the flow counts]:group:(pair scaled worth)' \
            '--verbose[Reports on standard error which file failed, and the system'\''s reason]' \
            '-h[Print help (see a summary with '\''-h'\'')]' '--help[Print help (see a summary with '\''-h'\'')]' '*:file:_files' ;;
    esac
}
_pit "$@"
