# shellcheck shell=bash
# Completion of abr-judge for bash. Where no word is offered, bash offers files.

_abr_judge() {
    COMPREPLY=()
    local current=${COMP_WORDS[COMP_CWORD]} option='' word
    # an option is left over if the word that is being written is its value
    for word in "${COMP_WORDS[@]:1:COMP_CWORD-1}"; do
        if [ -n "$option" ]; then
            option=''
        elif [ "$word" = -- ]; then
            return
        elif [ "$word" = --svg ]; then
            option=$word
        fi
    done
    if [ -z "$option" ] && [[ $current == -* ]]; then
        mapfile -t COMPREPLY < <(compgen -W '--text --json --svg -- --help --version' -- "$current")
    fi
}
complete -o bashdefault -o default -F _abr_judge abr-judge
