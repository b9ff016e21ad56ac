# Completion of linkcheck's arguments in bash. It is installed under the name linkcheck, and read there when it is needed.
_linkcheck() {
    local word=${COMP_WORDS[COMP_CWORD]} before=${COMP_WORDS[COMP_CWORD - 1]}
    local options='--report --json --typed --duty --timeout --glob --junit --jobs= --color= -j -q -h --show --walk --columns --mark --unmark
        --measure --aut --aut-states --dot --around --version --help'
    COMPREPLY=()
    case $before in
    -j | --timeout | --around | --glob) return ;;
    --aut | --aut-states) mapfile -t COMPREPLY < <(compgen -W 'impl spec' -- "$word") && return ;;
    --dot) mapfile -t COMPREPLY < <(compgen -W 'impl spec' -- "$word") ;;
    esac
    # In bash a = is a word of its own.
    if [ "$word" = = ]; then word=''; elif [ "$before" = = ]; then before=${COMP_WORDS[COMP_CWORD - 2]}; fi
    case $before in
    --color) mapfile -t COMPREPLY < <(compgen -W 'auto always never' -- "$word") && return ;;
    --jobs) return ;;
    esac
    if [[ $word == -* ]]; then
        mapfile -t COMPREPLY < <(compgen -W "$options" -- "$word")
        if [[ ${COMPREPLY[0]-} == *= ]]; then compopt -o nospace; fi
        return
    fi
    compopt -o filenames
    mapfile -t -O "${#COMPREPLY[@]}" COMPREPLY < <(compgen -f -- "$word")
}
complete -F _linkcheck linkcheck
