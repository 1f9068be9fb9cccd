# Completion of `sbe` for bash.
_sbe() {
    local word=${COMP_WORDS[COMP_CWORD]} before=${COMP_WORDS[COMP_CWORD - 1]}
    if [ "$COMP_CWORD" -eq 1 ]; then
        COMPREPLY=($(compgen -W "check compat dump build fixcheck tofix tosbe selftest regrade rawframe --help --version" -- "$word"))
    elif [ "$COMP_CWORD" -eq 2 ]; then
        COMPREPLY=($(compgen -f -- "$word"))
    elif [ "$before" = --also ] || { [[ "${COMP_WORDS[1]}" =~ ^(check|compat|regrade|tofix|tosbe)$ ]] && [ "$COMP_CWORD" -eq 3 ]; }; then
        COMPREPLY=($(compgen -f -- "$word"))
    elif [ "${COMP_WORDS[1]}" = tofix ] && [ "$COMP_CWORD" -gt 3 ] && [ $((COMP_CWORD % 2)) -eq 0 ]; then
        COMPREPLY=($(compgen -W "--also --begin --sender --target --seq --time --max-frame --max-input" -- "$word"))
    elif [ "${COMP_WORDS[1]}" = dump ] && [ $((COMP_CWORD % 2)) -eq 1 ]; then
        COMPREPLY=($(compgen -W "--also --max-frame --max-input" -- "$word"))
    elif [[ "${COMP_WORDS[1]}" = build || "${COMP_WORDS[1]}" = fixcheck || "${COMP_WORDS[1]}" = rawframe ]] && [ $((COMP_CWORD % 2)) -eq 1 ]; then
        COMPREPLY=($(compgen -W "--max-frame --max-input" -- "$word"))
    elif [ "${COMP_WORDS[1]}" = selftest ] && [ "$COMP_CWORD" -gt 4 ] && [ $((COMP_CWORD % 2)) -eq 1 ]; then
        COMPREPLY=($(compgen -W "--max-frame" -- "$word"))
    elif [[ "${COMP_WORDS[1]}" = regrade || "${COMP_WORDS[1]}" = tosbe ]] && [ "$COMP_CWORD" -gt 3 ] && [ $((COMP_CWORD % 2)) -eq 0 ]; then
        COMPREPLY=($(compgen -W "--max-frame --max-input" -- "$word"))
    fi
}
complete -o filenames -F _sbe sbe
