# Completion of speedlight's words for bash. After < or >, and where no word fits, file names are completed.
_speedlight() {
    local option words word=${COMP_WORDS[COMP_CWORD]}
    COMPREPLY=()
    case ${COMP_WORDS[COMP_CWORD - 1]} in
    *[\<\>]*) return ;;
    esac
    if [ "$COMP_CWORD" -eq 1 ]; then
        mapfile -t COMPREPLY < <(compgen -W "step run routes sample check balance poll values" -- "$word")
        return
    fi
    case ${COMP_WORDS[1]} in
    step | run) option=--trace ;;
    sample) option=--input words=$(seq 1 64) ;;
    *) return ;;
    esac
    # The option stands at most once, and not after a word that is -- alone.
    if [[ " ${COMP_WORDS[*]:2:COMP_CWORD-2} " == *" $option "* || " ${COMP_WORDS[*]:2:COMP_CWORD-2} " == *" -- "* ]]; then option=; fi
    mapfile -t COMPREPLY < <(compgen -W "$option $words" -- "$word")
}
complete -o default -F _speedlight speedlight
