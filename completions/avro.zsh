#compdef avro
# Completion of avro for zsh: put it into a folder of fpath as '_avro'.

_avro() {
    local -a commands options
    commands=(
        "judge:check that one schema reads all data written with another"
        "explain:list all faults of two schemas, by name"
        "confirm:recheck the certificate of a yes"
        "history:check that the last schema reads data written with each earlier one"
        "schema:check a schema, and print its canonical form or fingerprint"
        "check:check container files, and count their data and blocks"
        "show:print each datum of a container file"
        "copy:copy a container file, each datum in its plain encoding"
        "pipe:copy a container file from standard input to standard output"
        "header:print the schema of a container file, whatever its codec"
        "read:print the first datum in DATA, and its length in bytes"
        "help:print help"
    )
    options=(
        "--version:print the version"
        "--help:print help"
    )
    if ((CURRENT == 2)); then
        _describe command commands
        _describe -o option options
        return
    fi
    local command=$words[2]
    shift words
    ((CURRENT--))
    case $command in
        judge)
            _arguments '--certificate[write the certificate of a yes to OUT]:OUT:_files' \
                '--refutation[write the refuting datum to OUT, as a container]:OUT:_files' \
                '--max-pairs[raise this limit if the answer is undecided Pairs]:N: ' \
                '--max-size[raise this limit if the answer is undecided Size]:N: ' \
                '--max-depth[raise this limit if the answer is undecided Depth]:N: ' '--json[print each answer as a line of JSON]' \
                '--help[print help]' ':WRITER:_files' ':READER:_files' ;;
        explain)
            _arguments '--max-pairs[raise this limit if the answer is undecided Pairs]:N: ' '--json[print each answer as a line of JSON]' \
                '--help[print help]' ':WRITER:_files' ':READER:_files' ;;
        confirm)
            _arguments '--json[print each answer as a line of JSON]' '--help[print help]' ':WRITER:_files' ':READER:_files' ':CERT:_files' ;;
        history)
            _arguments '--certificates[write the certificates to OUT if each answer is yes]:OUT:_files' \
                '--confirm[recheck the certificates in CERT, and judge nothing]:CERT:_files' \
                '--mode[judge backward, forward or both ways]:MODE:(backward forward full)' \
                '--next[judge each schema with the next one only]' \
                '--max-pairs[raise this limit if the answer is undecided Pairs]:N: ' \
                '--max-size[raise this limit if the answer is undecided Size]:N: ' \
                '--max-depth[raise this limit if the answer is undecided Depth]:N: ' '--json[print each answer as a line of JSON]' \
                '--help[print help]' '*:SCHEMA:_files' ;;
        schema)
            _arguments '--canonical[print the Parsing Canonical Form]' '--fingerprint[print the SHA-256 fingerprint]' \
                '--why[print where and why a schema is refused]' '--help[print help]' ':FILE:_files' ;;
        check)
            _arguments '--json[print each answer as a line of JSON]' '--progress[report progress on standard error]' '--help[print help]' \
                '*:FILE:_files' ;;
        show)
            _arguments '--reader[resolve each datum to SCHEMA]:SCHEMA:_files' '--limit[stop after N lines]:N: ' \
                '--help[print help]' ':FILE:_files' ;;
        copy)
            _arguments '--reader[resolve each datum to SCHEMA]:SCHEMA:_files' '--sync[use this sync marker]:HEX32: ' \
                '--progress[report progress on standard error]' '--help[print help]' ':IN:_files' ':OUT:_files' ;;
        pipe)
            _arguments '--reader[resolve each datum to SCHEMA]:SCHEMA:_files' '--sync[use this sync marker]:HEX32: ' \
                '--counts[print the numbers of data and blocks on standard error]' '--progress[report progress on standard error]' '--help[print help]' ;;
        header)
            _arguments '--metadata[print all metadata instead of the schema]' '--help[print help]' ':FILE:_files' ;;
        read)
            _arguments '--reader[resolve each datum to SCHEMA]:SCHEMA:_files' '--skip[skip N bytes first]:N: ' \
                '--json[print each answer as a line of JSON]' '--help[print help]' ':WRITER:_files' ':DATA:_files' ;;
        help)
            _describe command commands ;;
    esac
}

_avro "$@"
