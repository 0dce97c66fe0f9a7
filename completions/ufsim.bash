# Completion of ufsim in bash.
_ufsim() {
    local current=${COMP_WORDS[COMP_CWORD]}
    COMPREPLY=()
    if [ "$COMP_CWORD" -eq 1 ]; then
        COMPREPLY=($(compgen -W 'run check image stress' -- "$current"))
    elif [ "${COMP_WORDS[1]}" = stress ]; then
        COMPREPLY=($(compgen -W '--dies --hosts' -- "$current"))
    elif [ "${COMP_WORDS[1]}" = image ] && [ "$COMP_CWORD" -eq 2 ]; then
        COMPREPLY=($(compgen -W 'save load check' -- "$current"))
    elif [ "$COMP_CWORD" -eq 2 ] || { [ "${COMP_WORDS[1]}" = image ] && [ "$COMP_CWORD" -le 4 ]; }; then
        compopt -o filenames 2>/dev/null
        COMPREPLY=($(compgen -f -- "$current"))
    fi
}
complete -F _ufsim ufsim
