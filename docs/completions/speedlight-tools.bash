# Completion of the companions of speedlight for bash: their forms, and the options that --help of each names. Where no
# word fits, file names are completed.
_speedlight_tools() {
    local words word=${COMP_WORDS[COMP_CWORD]} part=
    COMPREPLY=()
    case ${COMP_WORDS[COMP_CWORD - 1]} in
    *[\<\>]*) return ;;
    esac
    if [[ $word == -* ]]; then
        # The options of a shape, or of read and make, stand in its own help.
        [[ ${COMP_WORDS[0]##*/} != *-@(topology|frame) || $COMP_CWORD -lt 2 ]] || part=${COMP_WORDS[1]}
        words=$("${COMP_WORDS[0]}" ${part:+"$part"} --help 2>/dev/null </dev/null | grep -oE -- '--[a-z][a-z-]*' | sort -u)
    elif [ "$COMP_CWORD" -eq 1 ]; then
        # The forms of a tool stand in braces, or at the beginning of a line of its help.
        case ${COMP_WORDS[0]##*/} in
        *-report | *-topology | *-frame)
            words=$("${COMP_WORDS[0]}" --help 2>/dev/null </dev/null | sed -n 's/^    \([a-z][a-z-]*\)\(  .*\)\{0,1\}$/\1/p' | sort -u)
            ;;
        esac
    fi
    mapfile -t COMPREPLY < <(compgen -W "$words" -- "$word")
}
complete -o default -F _speedlight_tools speedlight-explain speedlight-diagram speedlight-report speedlight-topology speedlight-study speedlight-frame speedlight-view
