# Completions of cmh for bash. Source this file, or put it as `cmh` where bash-completion looks.

_cmh() {
    local word=${COMP_WORDS[COMP_CWORD]} before=${COMP_WORDS[COMP_CWORD - 1]} command='' i
    COMPREPLY=()
    case $before in
        --workers)
            mapfile -t COMPREPLY < <(compgen -W '1 2 4 8 16 32 64' -- "$word")
            return
            ;;
        --cuts | --choices) return ;;
        *'<' | *'>')
            compopt -o default
            return
            ;;
    esac
    for ((i = 1; i < COMP_CWORD; i++)); do
        case ${COMP_WORDS[i]} in
            analyse | trace)
                command=${COMP_WORDS[i]}
                break
                ;;
        esac
    done
    case $command in
        analyse) mapfile -t COMPREPLY < <(compgen -W '--workers --cuts --choices --help' -- "$word") ;;
        trace) mapfile -t COMPREPLY < <(compgen -W '--choices --help' -- "$word") ;;
        *) mapfile -t COMPREPLY < <(compgen -W 'analyse trace --help --version' -- "$word") ;;
    esac
}

complete -F _cmh cmh
