# shellcheck shell=bash
# Completion of abr-trace for bash. Where no word is offered, bash offers files.

# _abr_trace_offer WORDS: those that begin as the word does that is being written.
_abr_trace_offer() {
    mapfile -t COMPREPLY < <(compgen -W "$1" -- "${COMP_WORDS[COMP_CWORD]}")
}

# _abr_trace_list COLUMN WORD..: what the program lists of the scenario or log that these words name.
_abr_trace_list() {
    "${COMP_WORDS[0]}" --list "${@:2}" 2>/dev/null </dev/null | cut -d ' ' -f "$1" | sort -u
}

# _abr_trace_value OPTION WORD..: the values of an option.
_abr_trace_value() {
    case $1 in
    --log) return ;;
    --scenario) _abr_trace_offer 'two random' ;;
    --connection) _abr_trace_offer "$(_abr_trace_list 1 "${@:2}")" ;;
    --opening) _abr_trace_offer "$(_abr_trace_list 2 "${@:2}")" ;;
    esac
    # such a value is no file; who calls this without bash's completion has nothing to set
    compopt +o default +o bashdefault 2>/dev/null || true
}

_abr_trace() {
    COMPREPLY=()
    local option='' word
    local -a source=()
    # an option is left over if the word that is being written is its value
    for word in "${COMP_WORDS[@]:1:COMP_CWORD-1}"; do
        case $option in
        '')
            case $word in
            --) return ;;
            --scenario | --seed | --log | --connection | --opening) option=$word ;;
            esac
            ;;
        --scenario | --seed | --log) source+=("$option" "$word") option='' ;;
        *) option='' ;;
        esac
    done
    if [ -n "$option" ]; then
        _abr_trace_value "$option" "${source[@]}"
    elif [[ ${COMP_WORDS[COMP_CWORD]} == -* ]]; then
        _abr_trace_offer '--scenario --seed --log --connection --opening --text --list -- --help --version'
    fi
}
complete -o bashdefault -o default -F _abr_trace abr-trace
