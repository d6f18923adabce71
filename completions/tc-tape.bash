# bash completion of tc-tape and tc-archive: options, and files.
_tc_tape() {
    local word=${COMP_WORDS[COMP_CWORD]} before=${COMP_WORDS[COMP_CWORD - 1]}
    local options="--track --system --rate --limit --all-words --threshold --smooth --deep --path --vitc --margin --json --force --version"
    case ${COMP_WORDS[0]##*/} in
        *-archive) options+=" --jobs --hosts --resume --all --part --edl --ale" ;;
        *) options+=" --csv --picture --page --stamp" ;;
    esac
    case $before in
        --system) mapfile -t COMPREPLY < <(compgen -W "24 25 30" -- "$word") ;;
        --rate) mapfile -t COMPREPLY < <(compgen -W "23.976 24 25 29.97 30" -- "$word") ;;
        --track | --limit | --threshold | --smooth | --jobs | -j | --part) COMPREPLY=() ;;
        *)
            if [[ $word == -* ]]; then
                mapfile -t COMPREPLY < <(compgen -W "$options" -- "$word")
            else
                compopt -o filenames 2> /dev/null
                mapfile -t COMPREPLY < <(compgen -f -- "$word")
            fi
            ;;
    esac
}
complete -F _tc_tape tc-tape tc-archive
