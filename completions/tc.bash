# bash completion of tc: commands, and the values that are one of a few words.
_tc() {
    local word=${COMP_WORDS[COMP_CWORD]} command=${COMP_WORDS[1]} values=
    local commands="ltc-read ltc-worn ltc-rough ltc-fly ltc-spans ltc-mtc ltc-jam ltc-make ltc-load ltc-convert pcm-ltc wav-ltc ltc-pcm mtc-read vitc-read luma-vitc vitc-make chase ltc-chase number label labels help version"
    if [ "$COMP_CWORD" -eq 1 ]; then
        values=$commands
    else
        case $command:$COMP_CWORD in
            # made by tools/make_completions of the table of forms
            ltc-rough:2 | ltc-fly:4 | ltc-spans:4 | ltc-mtc:4 | ltc-jam:6 | ltc-chase:8) values="firm consecutive counted" ;;
            ltc-fly:3 | ltc-spans:3 | ltc-mtc:3 | ltc-jam:5 | ltc-chase:7) values="worn rough" ;;
            ltc-convert:2) values="1 2" ;;
            pcm-ltc:2 | wav-ltc:2) values="24 25 30" ;;
            pcm-ltc:6) values="path follow deep live" ;;
            pcm-ltc:5 | pcm-ltc:7) values="live" ;;
            pcm-ltc:8 | wav-ltc:7) values="live" ;;
            wav-ltc:5) values="path live" ;;
            wav-ltc:6) values="deep live" ;;
            ltc-make:2 | chase:2 | ltc-chase:2 | number:2 | label:2 | labels:2) values="24 25 30 30d" ;;
            ltc-make:3) values="forward backward" ;;
            luma-vitc:2) values="25 30" ;;
            vitc-make:2) values="25 30 30d" ;;
            # by hand
            labels:3) values="number label seconds length plus minus since to sum ntsc column csv" ;;
            labels:4 | labels:5 | labels:6 | labels:7 | labels:8)
                case ${COMP_WORDS[COMP_CWORD-2]}:${COMP_WORDS[COMP_CWORD-1]} in
                    column:* | csv:*) values="number label seconds length plus minus since to" ;;
                    *:to) values="24 25 30 30d" ;;
                    *:ntsc) [ "$COMP_CWORD" -gt 4 ] || values="number label seconds length plus minus since to sum column csv" ;;
                    to:24 | to:30) values="ntsc" ;;
                esac ;;
            help:2) values="$commands statuses" ;;
        esac
    fi
    mapfile -t COMPREPLY < <(compgen -W "$values" -- "$word")
}
complete -F _tc tc
