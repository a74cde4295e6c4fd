# Completions of cmh-explain for bash. Source this file, or put it as `cmh-explain` where bash-completion looks.

_cmh_explain() {
    local word=${COMP_WORDS[COMP_CWORD]} before=${COMP_WORDS[COMP_CWORD - 1]}
    COMPREPLY=()
    case $before in
        --why) return ;;
        --html | --state) compopt -o default; return ;;
        --color) mapfile -t COMPREPLY < <(compgen -W 'auto always never' -- "$word"); return ;;
    esac
    case $word in
        -*) mapfile -t COMPREPLY < <(compgen -W '--all --why --summary --quiet --json --dot --svg --html
                --state --color --pager --without-notes --help --version' -- "$word") ;;
        *) compopt -o default ;;
    esac
}

complete -F _cmh_explain cmh-explain
