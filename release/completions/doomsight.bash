# Completes the words of doomsight in bash. Verbs and options are those that the program's own help names.
_doomsight() {
    local program=${COMP_WORDS[0]} verb=${COMP_WORDS[1]} words=
    local now=${COMP_WORDS[COMP_CWORD]} before=${COMP_WORDS[COMP_CWORD - 1]}
    if [ "$COMP_CWORD" = 1 ]; then
        words="$("$program" --help 2>/dev/null | sed -n 's/^  \([a-z][a-z]*\) .*/\1/p') help --help --version"
    elif [ "$before" = --budget ]; then
        words="full enough"
    elif [ "$before" = --refused ]; then
        words="keep clear stop"
    elif [[ $now == -* ]]; then
        words="$("$program" "$verb" --help 2>/dev/null | sed -n 's/^  \(--[a-z]*\) .*/\1/p') --help"
    elif [ "$before" = --only ] || { [ "$COMP_CWORD" = 3 ] && [ "$verb" != all ] && [ "$verb" != verify ] && [ "$verb" != maps ]; }; then
        words=$(grep -aoE 'MAP[0-9][0-9]|E[0-9]M[0-9]' -- "${COMP_WORDS[2]}" 2>/dev/null | sort -u)
    fi
    mapfile -t COMPREPLY < <(compgen -W "$words" -- "$now")
}
complete -o default -F _doomsight doomsight
