# Completions of cmh-stall for bash. Source this file, or put it as `cmh-stall` where bash-completion looks.

_cmh_stall() {
    local word=${COMP_WORDS[COMP_CWORD]} before=${COMP_WORDS[COMP_CWORD - 1]}
    local options='--seconds --with --stacks --kill --heap --yes --cookie-file'
    options+=' --output --redact --true --all --why --service --keep --timeout --grace'
    options+=' --most-seconds --most-memory --help --version'
    options+=' --summary --quiet --json --dot --svg --html --state --color --pager --without-notes'
    local systems='linux erlang go jvm mariadb mpi postgres python rabbitmq'
    COMPREPLY=()
    case " ${COMP_WORDS[*]:1:COMP_CWORD-1} " in
        *' --timeout '*' -- '*) _command_of_cmh_stall && return ;;
    esac
    [[ $before != --@(seconds|most-seconds|most-memory|timeout|grace|service|keep) ]] || return
    case $before:$word in
        --html:* | --state:*) compopt -o default ;;
        --color:*) mapfile -t COMPREPLY < <(compgen -W 'auto always never' -- "$word") ;;
        *:-*) mapfile -t COMPREPLY < <(compgen -W "$options" -- "$word") ;;
        cmh-stall:* | --with:*) mapfile -t COMPREPLY < <(compgen -W "$systems" -A file -- "$word") ;;
        erlang:* | rabbitmq:*) mapfile -t COMPREPLY < <(compgen -W "$(_cmh_nodes)" -- "$word") ;;
        *) compopt -o default ;;
    esac
}

# Prints the nodes of this machine.
_cmh_nodes() { epmd -names 2>/dev/null | sed -n "s/^name \(.*\) at port .*/\1@$(uname -n | cut -d. -f1)/p"; }

# Completes the words behind -- as those of a command, if bash-completion is there.
_command_of_cmh_stall() {
    local at
    declare -F _command_offset >/dev/null || return
    for ((at = 1; at < COMP_CWORD; at++)); do
        [[ ${COMP_WORDS[at]} != -- ]] || break
    done
    _command_offset $((at + 1))
}

complete -F _cmh_stall cmh-stall
