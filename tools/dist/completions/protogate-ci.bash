# Completions of protogate-ci and protogate-report for bash.

_protogate_revisions() {
    git for-each-ref --format='%(refname:short)' 2>/dev/null
}

_protogate_ci() {
    local word=${COMP_WORDS[COMP_CWORD]} before=${COMP_WORDS[COMP_CWORD - 1]} at words=0
    local options='--help --version --include --skip --types --both --no-both --view --with-protoc --no-with-protoc --base --settings --no-settings --time-limit --github --record'
    COMPREPLY=()
    for ((at = 1; at < COMP_CWORD; at++)); do
        case ${COMP_WORDS[at]}:${COMP_WORDS[at - 1]} in
            -*:* | *:--include | *:--skip | *:--view | *:--base | *:--settings | *:--time-limit | *:--record) ;;
            *) ((++words)) ;;
        esac
    done
    case $before:$word:$words in
        --skip:* | --time-limit:*) ;;
        --base:*) COMPREPLY=($(compgen -W "$(_protogate_revisions)" -- "$word")) ;;
        --include:*)
            compopt -o filenames 2>/dev/null
            mapfile -t COMPREPLY < <(compgen -d -- "$word")
            ;;
        --view:*) COMPREPLY=($(compgen -W 'numbers names' -- "$word")) ;;
        --record:* | --settings:*)
            compopt -o filenames 2>/dev/null
            mapfile -t COMPREPLY < <(compgen -f -- "$word")
            ;;
        *:-*:*) COMPREPLY=($(compgen -W "$options" -- "$word")) ;;
        *:*:0) COMPREPLY=($(compgen -W "$(_protogate_revisions)" -- "$word")) ;;
        *:*:1)
            compopt -o filenames 2>/dev/null
            mapfile -t COMPREPLY < <(compgen -d -- "$word")
            ;;
    esac
}

_protogate_report() {
    local word=${COMP_WORDS[COMP_CWORD]} before=${COMP_WORDS[COMP_CWORD - 1]}
    COMPREPLY=()
    case $before:$word in
        --old-link:* | --new-link:*) ;;
        *:-*) COMPREPLY=($(compgen -W '--help --version --old-link --new-link --output' -- "$word")) ;;
        *)
            compopt -o filenames 2>/dev/null
            mapfile -t COMPREPLY < <(compgen -f -- "$word")
            ;;
    esac
}

complete -F _protogate_ci protogate-ci
complete -F _protogate_report protogate-report
