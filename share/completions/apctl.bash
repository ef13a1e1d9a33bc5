# Completion of apctl's words for bash: its commands, and then files.
_apctl() {
    if [ "$COMP_CWORD" = 1 ]; then
        mapfile -t COMPREPLY < <(compgen -W 'check run play live --help --version' -- "${COMP_WORDS[1]}")
    elif [[ ${COMP_WORDS[1]} == -* ]]; then
        COMPREPLY=()
    elif [ "${COMP_WORDS[1]}" = live ] && [ "$COMP_CWORD" = 2 ] && [[ ${COMP_WORDS[2]} == -* ]]; then
        mapfile -t COMPREPLY < <(compgen -W '--octets' -- "${COMP_WORDS[2]}")
    elif [ "$COMP_CWORD" = 2 ] || { [ "$COMP_CWORD" = 3 ] && [ "${COMP_WORDS[2]}" = --octets ]; }; then
        local word=${COMP_WORDS[COMP_CWORD]}
        mapfile -t COMPREPLY < <(compgen -f -X '!*.toml' -- "$word"; compgen -d -- "$word")
    elif [ "${COMP_WORDS[1]}" = play ] || { [ "${COMP_WORDS[1]}" = run ] && [ "$COMP_CWORD" = 3 ]; }; then
        mapfile -t COMPREPLY < <(compgen -f -- "${COMP_WORDS[COMP_CWORD]}")
    else
        COMPREPLY=()
    fi
}
complete -o filenames -F _apctl apctl
