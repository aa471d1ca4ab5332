# Completions of protogate-ci and protogate-report for fish.

# How many words there are before the one that is completed, but for options and their values.
function __protogate_ci_words
    set -l count 0
    set -l before ''
    for word in (commandline -opc)[2..-1]
        switch $before
            case --include --skip --view --base --settings --time-limit --record
            case '*'
                string match -q -- '-*' $word; or set count (math $count + 1)
        end
        set before $word
    end
    echo $count
end

complete -c protogate-ci -f
complete -c protogate-ci -n 'test (__protogate_ci_words) = 0' -a "(git for-each-ref --format='%(refname:short)' 2>/dev/null)"
complete -c protogate-ci -n 'test (__protogate_ci_words) = 1' -a '(__fish_complete_directories)'
complete -c protogate-ci -l help -d 'print help'
complete -c protogate-ci -l version -d 'print versions'
complete -c protogate-ci -l include -x -a '(__fish_complete_directories)' -d 'look for imports there too'
complete -c protogate-ci -l skip -x -d 'leave out a type or a file'
complete -c protogate-ci -l types -d 'name each compatible type'
complete -c protogate-ci -l both -d 'ask for both directions'
complete -c protogate-ci -l no-both -d 'ask for old messages alone'
complete -c protogate-ci -l view -x -a 'numbers names' -d 'how enums are compared'
complete -c protogate-ci -l with-protoc -d 'gate what protoc makes of files that are refused'
complete -c protogate-ci -l no-with-protoc -d 'gate source files alone'
complete -c protogate-ci -l base -x -a "(git for-each-ref --format='%(refname:short)' 2>/dev/null)" -d 'take the settings as they were there'
complete -c protogate-ci -l settings -r -F -d 'take the settings of this file'
complete -c protogate-ci -l no-settings -d 'take no settings'
complete -c protogate-ci -l time-limit -x -d 'end each program that runs longer'
complete -c protogate-ci -l github -d 'print annotations for GitHub'
complete -c protogate-ci -l record -r -F -d 'write all that was found as JSON'
complete -c protogate-report -F
complete -c protogate-report -l help -d 'print help'
complete -c protogate-report -l version -d 'print versions'
complete -c protogate-report -l old-link -x -d 'how a link to the old side goes'
complete -c protogate-report -l new-link -x -d 'how a link to the new side goes'
complete -c protogate-report -l output -r -F -d 'write the page to this file'
