# bash completion for tspc
_tspc() {
    local word=${COMP_WORDS[COMP_CWORD]} last=${COMP_WORDS[COMP_CWORD - 1]}
    COMPREPLY=()
    if [ "$COMP_CWORD" -eq 1 ]; then
        mapfile -t COMPREPLY < <(compgen -W 'solve verify tour bench replay bound checkbound' -- "$word")
        return
    fi
    case $last in
    --budget | --seed | --gap | --grunts | --lose | --steps) return ;;
    esac
    if [[ $word == -* ]]; then
        case ${COMP_WORDS[1]} in
        solve) mapfile -t COMPREPLY < <(compgen -W '--budget --seed --resume --gap --grunts --lose --twice --late' -- "$word") ;;
        tour) mapfile -t COMPREPLY < <(compgen -W '--seed' -- "$word") ;;
        replay) mapfile -t COMPREPLY < <(compgen -W '--budget --grunts' -- "$word") ;;
        bound) mapfile -t COMPREPLY < <(compgen -W '--steps' -- "$word") ;;
        esac
    elif [ "${COMP_WORDS[1]}" != bench ]; then
        compopt -o filenames
        mapfile -t COMPREPLY < <(compgen -f -- "$word")
    fi
}
complete -F _tspc tspc
