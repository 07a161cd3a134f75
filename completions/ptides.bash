# Completion of ptides for bash. tools/install.sh installs it; without an install, source this file:
#     . completions/ptides.bash

# The companions beside the launcher that is called by this word.
_ptides_companions() { # WORD
    local launcher companion
    # Links are followed; a `~/` that is still in the word is the home folder.
    launcher=$(realpath -- "$(type -P -- "${1/#~\//"$HOME"/}")" 2>/dev/null) || return
    for companion in "${launcher%/*}"/tools/ptides-*; do
        [[ ! -x $companion || ${companion##*/ptides-} == *[!a-z0-9-]* ]] || printf '%s\n' "${companion##*/ptides-}"
    done
}

# Made by tools/make-companion-pages.py:
_ptides_companion_options() { # NAME [KIND]
    case $1 in
        bench) echo '-h --help --version --junit --update --jobs --timeout --claims --blocks --dask' ;;
        dot) echo '-h --help --version --blocks' ;;
        explain) echo '-h --help --version --line' ;;
        lint) echo '-h --help --version --claims --blocks --strict' ;;
        probe) echo '-h --help --version --blocks' ;;
        report) echo '-h --help --version -o --output --clock --claims --blocks --zero --zone --title' ;;
        rows)
            case ${2-} in
                candump) echo '-h --help --id --bytes --order --bits --signed --bus --period --phase --latency --last --scale --shift --round --zero --start --zone --from --to --row --claims -o' ;;
                can) echo '-h --help --id --bytes --order --bits --signed --bus --signals --raw --period --phase --latency --last --scale --shift --round --zero --start --zone --from --to --row --claims --dbc -o' ;;
                vcd) echo '-h --help --signal --signed --period --phase --latency --last --scale --shift --round --zero --start --zone --from --to --row --claims -o' ;;
                csv) echo '-h --help --period --phase --latency --last --scale --shift --round --zero --start --zone --from --to --row --claims --stamp --unit --value --time --where --missing --preamble --skip --delimiter --decimal -o' ;;
                air) echo '-h --help --sender --bus --sent-lag --received-lag --other-data --row --claims -o' ;;
                *) echo '-h --help --version' ;;
            esac
            ;;
        timing) echo '-h --help --version --markdown --only --blocks' ;;
        wave) echo '-h --help --version --clock --workers --claims --blocks --vcd --csv --svg --trace --from --to --zero --zone --wall --no-inner' ;;
    esac
}

_ptides_companion_kinds() { # NAME
    case $1 in
        rows) echo 'candump can vcd csv air' ;;
        wave | report) echo 'run replay' ;;
        explain) echo 'run check meaning make migrate slacks audit replay' ;;
    esac
}
# End of what is made.

# The names of the actors of a graph, as seen from the folder that `-C` names.
_ptides_actors() { # FOLDER GRAPH
    (
        unset CDPATH
        cd -- "$1" 2>/dev/null && grep -o '"name" *: *"[A-Za-z][A-Za-z0-9_]*"' -- "$2" 2>/dev/null | sed 's/.*"\([^"]*\)"$/\1/'
    )
}

# The graphs, or files of another ending, and the folders that begin with the word, as seen from the folder that `-C` names; any files if
# there are none.
_ptides_files() { # FOLDER WORD [ENDING]
    (
        unset CDPATH
        cd -- "$1" 2>/dev/null || exit
        files=$(compgen -f -X "!*.${3-json}" -- "$2")
        folders=$(compgen -d -- "$2")
        if [[ $files$folders ]]; then
            printf '%s\n' ${files:+"$files"} ${folders:+"$folders"}
        else
            compgen -f -- "$2"
        fi
    )
}

# Whether a word before the current one is the graph: no option, and no value of one.
_ptides_has_graph() { # INDEX OF THE COMMAND
    local index word before=''
    for ((index = $1 + 1; index < COMP_CWORD; index++)); do
        word=${COMP_WORDS[index]}
        # In `--workers=4` the `=` is a word of its own.
        [[ $word != = ]] || continue
        [[ $word == -* || $before == --@(workers|claims|blocks) ]] || return 0
        before=$word
    done
    return 1
}

_ptides() {
    local current=${COMP_WORDS[COMP_CWORD]} before=${COMP_WORDS[COMP_CWORD - 1]} first=1 folder=. options='' option command
    COMPREPLY=()
    # In `step:0:1` each `:` is a word of its own, and after the first there are only numbers.
    if [[ $current == : || $before == : ]]; then
        return
    fi
    # In `--workers=4` the `=` is a word of its own.
    if [[ $current == = ]]; then
        current=
    elif [[ $before == = ]]; then
        before=${COMP_WORDS[COMP_CWORD - 2]}
    fi
    while [[ ${COMP_WORDS[first]} == -C ]] && ((first + 1 < COMP_CWORD)); do
        case ${COMP_WORDS[first + 1]} in
            /*) folder=${COMP_WORDS[first + 1]} ;;
            *) folder=$folder/${COMP_WORDS[first + 1]} ;;
        esac
        first=$((first + 2))
    done
    command=${COMP_WORDS[first]}
    if ((COMP_CWORD == first)); then
        mapfile -t COMPREPLY < <(compgen -W "run check meaning make migrate slacks audit replay help $(_ptides_companions "${COMP_WORDS[0]}")" -- "$current")
        [[ $current != -* ]] || mapfile -t COMPREPLY < <(compgen -W '-C --help --version' -- "$current")
    elif [[ $before == -C && $command == -C ]]; then
        mapfile -t COMPREPLY < <(
            unset CDPATH
            cd -- "$folder" 2>/dev/null && compgen -d -- "$current"
        )
        compopt -o filenames 2>/dev/null
    elif [[ $command == help ]]; then
        mapfile -t COMPREPLY < <(compgen -W "run check meaning make migrate slacks audit replay formulas $(_ptides_companions "${COMP_WORDS[0]}")" -- "$current")
    elif [[ $before == --workers ]]; then
        mapfile -t COMPREPLY < <(compgen -W "$(seq 1 64)" -- "$current")
    elif [[ $before == --claims ]]; then
        mapfile -t COMPREPLY < <(compgen -W '1000000 10000000 100000000' -- "$current")
    elif [[ $before == --clock ]]; then
        mapfile -t COMPREPLY < <(compgen -W 'machine paced step:' -- "$current")
        [[ ${COMPREPLY[*]} != step: ]] || compopt -o nospace 2>/dev/null
    elif [[ $before == --blocks ]]; then
        mapfile -t COMPREPLY < <(_ptides_files "$folder" "$current" blocks)
        compopt -o filenames 2>/dev/null
    elif [[ $current == -* ]]; then
        case $command in
            run) options='--workers --clock --log --claims --blocks' ;;
            make) options=--workers ;;
            replay) options='--workers --log --claims --blocks' ;;
            meaning | audit) options='--claims --blocks' ;;
            check | migrate | slacks) options=--blocks ;;
            *) options=$(_ptides_companion_options "$command" "${COMP_WORDS[first + 1]}") ;;
        esac
        for option in $options; do
            # Each is given at most once.
            if [[ $option == "$current"* && " ${COMP_WORDS[*]} " != *" $option "* ]]; then
                COMPREPLY+=("$option")
            fi
        done
    elif ((COMP_CWORD == first + 1)) && [[ $(_ptides_companion_kinds "$command") ]] &&
        [[ $(compgen -W "$(_ptides_companion_kinds "$command")" -- "$current") || $command == rows ]]; then
        mapfile -t COMPREPLY < <(
            compgen -W "$(_ptides_companion_kinds "$command")" -- "$current"
            [[ $command == rows ]] || _ptides_files "$folder" "$current"
        )
        compopt -o filenames 2>/dev/null
    elif [[ $command == probe && $COMP_CWORD -gt $((first + 1)) ]]; then
        mapfile -t COMPREPLY < <(compgen -W "$(_ptides_actors "$folder" "${COMP_WORDS[first + 1]}")" -- "$current")
    elif [[ $command == rows || $before == -o || $before == --@(vcd|csv|svg|trace|junit|dbc) ]]; then
        mapfile -t COMPREPLY < <(
            unset CDPATH
            cd -- "$folder" 2>/dev/null && compgen -f -- "$current"
        )
        compopt -o filenames 2>/dev/null
    elif [[ $command == make ]]; then
        mapfile -t COMPREPLY < <(compgen -W "$(seq 1 100)" -- "$current")
    elif [[ $command == audit || $command == replay ]] && _ptides_has_graph "$first"; then
        # A log and an air file have any name.
        mapfile -t COMPREPLY < <(
            unset CDPATH
            cd -- "$folder" 2>/dev/null && compgen -f -- "$current"
        )
        compopt -o filenames 2>/dev/null
    else
        mapfile -t COMPREPLY < <(_ptides_files "$folder" "$current")
        compopt -o filenames 2>/dev/null
    fi
}
complete -F _ptides ptides
