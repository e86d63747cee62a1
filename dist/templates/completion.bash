# Completion of pageaudit VERSION for bash.
_pageaudit() {
    local word=${COMP_WORDS[COMP_CWORD]} before=${COMP_WORDS[COMP_CWORD - 1]} command=${COMP_WORDS[1]} words= found
    COMPREPLY=()
    case $word:$before in
        =:*) word= ;;
        *:=) before=${COMP_WORDS[COMP_CWORD - 2]} ;;
    esac
    [ "$COMP_CWORD" -gt 1 ] || words='NAMES'
    [ -n "$words" ] || case "$command $before" in
VALUES
    esac
    [ -n "$words" ] || case $command:$word in
OTHERS
        help:*) words='COMMANDS' ;;
        *) return ;;
    esac
    while IFS= read -r found; do
        COMPREPLY+=("$(printf %q "$found")")
    done < <(compgen -W "$words" -- "$word")
}
complete -F _pageaudit pageaudit
