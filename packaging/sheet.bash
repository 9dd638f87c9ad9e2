# Completion for sheet(1): its commands and their options, as its own help has them.
_sheet() {
    local word=${COMP_WORDS[COMP_CWORD]} words=
    COMPREPLY=()
    if [ "$COMP_CWORD" = 1 ]; then
        words="$(sheet --help 2> /dev/null | sed -n 's/^  sheet \([a-z]*\) .*/\1/p') --help --version"
    elif [[ $word == -* ]]; then
        words="$(sheet "${COMP_WORDS[1]}" --help 2> /dev/null | sed -n 's/^  \(--[a-z-]*\).*/\1/p') --help"
    fi
    mapfile -t COMPREPLY < <(compgen -W "$words" -- "$word")
}
complete -o default -F _sheet sheet sheet-static
