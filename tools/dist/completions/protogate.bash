# Completions of protogate for bash.

# The argument after the last one that is this option, or what is taken without.
_protogate_value() {
    local at found=$2
    for ((at = 1; at < COMP_CWORD; at++)); do
        [[ ${COMP_WORDS[at]} != "$1" ]] || found=${COMP_WORDS[at + 1]}
    done
    printf '%s' "$found"
}

# Folders and files below a folder, by their paths from there.
_protogate_files() {
    local folder=$1 word
    folder=${folder/#\~/$HOME}
    compopt -o filenames 2>/dev/null
    while IFS= read -r word; do
        [[ ! -d $folder/$word ]] || word+=/
        COMPREPLY+=("$word")
    done < <(cd -- "$folder" 2>/dev/null && compgen -f -- "$2")
    [[ ${#COMPREPLY[@]} -ne 1 || ${COMPREPLY[0]} != */ ]] || compopt -o nospace 2>/dev/null
}

_protogate() {
    local word=${COMP_WORDS[COMP_CWORD]} before=${COMP_WORDS[COMP_CWORD - 1]} command=${COMP_WORDS[1]} options=--help
    COMPREPLY=()
    if ((COMP_CWORD == 1)); then
        COMPREPLY=($(compgen -W 'compile gate gate-all verify show types --help --version' -- "$word"))
        return
    fi
    case $command in
        compile) options+=' --dir --include --files-from' ;;
        types) options+=' --dir --include --files-from --json' ;;
        gate) options+=' --old-dir --new-dir --old-include --new-include --old --new --type --view --both --cert --explain --json' ;;
        gate-all) options+=' --old-dir --new-dir --old-include --new-include --old --new --old-files-from --new-files-from --view --explain --json --notes' ;;
        verify) options+=' --old-dir --new-dir --old-include --new-include --old --new --json' ;;
        show) options+=' --dir --include --file --type --json' ;;
        *) return ;;
    esac
    case $before in
        --old) _protogate_files "$(_protogate_value --old-dir .)" "$word" ;;
        --new) _protogate_files "$(_protogate_value --new-dir .)" "$word" ;;
        --file) _protogate_files "$(_protogate_value --dir .)" "$word" ;;
        --dir | --old-dir | --new-dir | --include | --old-include | --new-include)
            compopt -o filenames 2>/dev/null
            mapfile -t COMPREPLY < <(compgen -d -- "$word")
            ;;
        --files-from | --old-files-from | --new-files-from) _protogate_files . "$word" ;;
        --view) COMPREPLY=($(compgen -W 'numbers names' -- "$word")) ;;
        --type) ;;
        *)
            case $command:$word in
                *:-*) COMPREPLY=($(compgen -W "$options" -- "$word")) ;;
                compile:* | types:*) _protogate_files "$(_protogate_value --dir .)" "$word" ;;
                verify:*) _protogate_files . "$word" ;;
            esac
            ;;
    esac
}

complete -F _protogate protogate
