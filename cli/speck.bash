# Made by cli/pages from cli/commands.txt. Completes the words of speck in bash, once it is read: . cli/speck.bash
_speck() {
    local word=${COMP_WORDS[COMP_CWORD]}
    COMPREPLY=()
    if [ "$COMP_CWORD" -eq 1 ]; then
        mapfile -t COMPREPLY < <(compgen -W 'replay trace draw origins worlds run plain print ends sched check explain make load' -- "$word")
    elif [ "$COMP_CWORD" -eq 2 ] && [ "${COMP_WORDS[1]}" = explain ]; then
        mapfile -t COMPREPLY < <(compgen -W 'print ends sched check' -- "$word")
    fi
}
complete -o default -F _speck speck ./speck
