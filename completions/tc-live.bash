# bash completion of tc-live: options, and files.
_tc_live() {
    local word=${COMP_WORDS[COMP_CWORD]} before=${COMP_WORDS[COMP_CWORD - 1]}
    local options="--card --file --jack --rate --tracks --track --system --limit --threshold --smooth --pace --midi --page --bind"
    options+=" --log --deep --plain --quiet --version"
    case $before in
        --system) mapfile -t COMPREPLY < <(compgen -W "24 25 30" -- "$word") ;;
        --file | --midi | --log)
            compopt -o filenames 2> /dev/null
            mapfile -t COMPREPLY < <(compgen -f -- "$word")
            ;;
        --card | --jack | --rate | --tracks | --track | --limit | --threshold | --smooth | --pace | --page | --bind) COMPREPLY=() ;;
        *) mapfile -t COMPREPLY < <(compgen -W "$options" -- "$word") ;;
    esac
}
complete -F _tc_live tc-live
