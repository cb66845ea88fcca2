# Completion of avro for bash: source it, or put it into bash-completion's folder as 'avro'.

_avro_options() {
    case $1 in
        judge) echo --certificate --refutation --max-pairs --max-size --max-depth --json --help ;;
        explain) echo --max-pairs --json --help ;;
        confirm) echo --json --help ;;
        history) echo --certificates --confirm --mode --next --max-pairs --max-size --max-depth --json --help ;;
        schema) echo --canonical --fingerprint --why --help ;;
        check) echo --json --progress --help ;;
        show) echo --reader --limit --help ;;
        copy) echo --reader --sync --progress --help ;;
        pipe) echo --reader --sync --counts --progress --help ;;
        header) echo --metadata --help ;;
        read) echo --reader --skip --json --help ;;
        *) echo --version --help ;;
    esac
}

_avro() {
    local word=${COMP_WORDS[COMP_CWORD]} before=${COMP_WORDS[COMP_CWORD - 1]}
    local commands='judge explain confirm history schema check show copy pipe header read help'
    local choices=()
    if ((COMP_CWORD == 1)); then
        mapfile -t choices < <(compgen -W "$commands $(_avro_options)" -- "$word")
    elif [[ ${COMP_WORDS[1]} == help ]]; then
        ((COMP_CWORD > 2)) || mapfile -t choices < <(compgen -W "$commands" -- "$word")
    elif [[ $before == --mode ]]; then
        mapfile -t choices < <(compgen -W 'backward forward full' -- "$word")
    elif [[ $before =~ ^--(sync|limit|skip|max-pairs|max-size|max-depth)$ ]]; then
        choices=()
    elif [[ $word == -* ]]; then
        mapfile -t choices < <(compgen -W "$(_avro_options "${COMP_WORDS[1]}")" -- "$word")
    else
        compopt -o filenames 2>/dev/null
        mapfile -t choices < <(compgen -f -- "$word")
    fi
    COMPREPLY=("${choices[@]}")
}

complete -F _avro avro
