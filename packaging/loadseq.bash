# Completion of loadseq for bash: commands, options, files and folders.
_loadseq() {
    local word="${COMP_WORDS[COMP_CWORD]}" before="${COMP_WORDS[COMP_CWORD - 1]}" options
    COMPREPLY=()
    if [ "$COMP_CWORD" = 1 ]; then
        mapfile -t COMPREPLY < <(compgen -W "check first whatif summary explain page table session profile --help --version" -- "$word")
    elif [ "$before" = --workers ] || [ "$before" = --chunk ] || [ "$before" = --step ]; then
        return
    elif [ "$before" = --format ]; then
        mapfile -t COMPREPLY < <(compgen -W "csv jsonl" -- "$word")
    elif [[ "$word" = -* ]]; then
        options="--steps --workers --chunk --help"
        [ "${COMP_WORDS[1]}" != profile ] || options=--help
        case "${COMP_WORDS[1]}" in
            explain) options+=" --step" ;;
            table) options+=" --format" ;;
            session) options+=" --desk --prompt" ;;
        esac
        mapfile -t COMPREPLY < <(compgen -W "$options" -- "$word")
    else
        compopt -o filenames
        mapfile -t COMPREPLY < <(compgen -f -- "$word")
    fi
}
complete -F _loadseq loadseq
