#compdef protogate-ci protogate-report
# Completions of protogate-ci and protogate-report for zsh.

_protogate_revisions() {
    local -a found=(${(f)"$(git for-each-ref --format='%(refname:short)' 2>/dev/null)"})
    compadd -a found
}

case $service in
    protogate-ci)
        _arguments '--help[print help]' '--version[print versions]' '*--include[look for imports there too]:folder:_files -/' \
            '*--skip[leave out a type or a file]:name: ' \
            '--types[name each compatible type]' '--both[ask for both directions]' '--no-both[ask for old messages alone]' \
            '--view[how enums are compared]:view:(numbers names)' \
            '--with-protoc[gate what protoc makes of files that are refused]' '--no-with-protoc[gate source files alone]' \
            '--base[take the settings as they were there]:revision:_protogate_revisions' '--settings[take the settings of this file]:file:_files' \
            '--no-settings[take no settings]' '--time-limit[end each program that runs longer]:seconds: ' \
            '--github[print annotations for GitHub]' '--record[write all that was found as JSON]:file:_files' \
            '1:revision:_protogate_revisions' '2:folder:_files -/' '*:type: '
        ;;
    protogate-report)
        _arguments '--help[print help]' '--version[print versions]' '--old-link[how a link to the old side goes]:URL: ' \
            '--new-link[how a link to the new side goes]:URL: ' '--output[write the page to this file]:file:_files' ':record:_files'
        ;;
esac
