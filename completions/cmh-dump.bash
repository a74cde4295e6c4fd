# Completions of cmh-dump for bash. Source this file, or put it as `cmh-dump` where bash-completion looks.

_cmh_dump() {
    local word=${COMP_WORDS[COMP_CWORD]} before=${COMP_WORDS[COMP_CWORD - 1]}
    local options='--facts --output --save --pid --seconds --stacks --help --version'
    local systems='linux erlang go jvm mariadb mpi postgres python rabbitmq sketch both join check'
    COMPREPLY=()
    case $before in
        --facts | --output | -o | --save)
            compopt -o default
            return
            ;;
    esac
    case $word in
        -*) mapfile -t COMPREPLY < <(compgen -W "$options" -- "$word") ;;
        *)
            if ((COMP_CWORD == 1)); then
                mapfile -t COMPREPLY < <(compgen -W "$systems" -- "$word")
            else
                compopt -o default
            fi
            ;;
    esac
}

complete -F _cmh_dump cmh-dump
