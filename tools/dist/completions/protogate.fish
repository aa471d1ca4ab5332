# Completions of protogate for fish.

# Files below the folder that an option names, by their paths from there.
function __protogate_files
    set -l words (commandline -opc)
    set -l folder .
    for at in (seq (count $words))
        if test "$words[$at]" = $argv[1]; and set -q words[(math $at + 1)]
            set folder $words[(math $at + 1)]
        end
    end
    set -l word (commandline -ct)
    for path in $folder/$word*
        set -l name (string replace -- $folder/ '' $path)
        test -d $path; and set name $name/
        echo $name
    end
end

complete -c protogate -f
complete -c protogate -n __fish_use_subcommand -a compile -d 'write the descriptor set of texts'
complete -c protogate -n __fish_use_subcommand -a gate -d 'find whether a changed message type may be released'
complete -c protogate -n __fish_use_subcommand -a gate-all -d 'find what breaks in all message types, and why'
complete -c protogate -n __fish_use_subcommand -a verify -d 'check a certificate'
complete -c protogate -n __fish_use_subcommand -a show -d 'show what bytes are read as'
complete -c protogate -n __fish_use_subcommand -a types -d 'name the message types of files'
complete -c protogate -n __fish_use_subcommand -l version -d 'print the version'
complete -c protogate -l help -d 'print help'
for command in gate gate-all verify
    set -l is_it "__fish_seen_subcommand_from $command"
    complete -c protogate -n $is_it -l old-dir -x -a '(__fish_complete_directories)' -d 'the folder of the old files'
    complete -c protogate -n $is_it -l new-dir -x -a '(__fish_complete_directories)' -d 'the folder of the new files'
    complete -c protogate -n $is_it -l old-include -x -a '(__fish_complete_directories)' -d 'an included folder of the old files'
    complete -c protogate -n $is_it -l new-include -x -a '(__fish_complete_directories)' -d 'an included folder of the new files'
    complete -c protogate -n $is_it -l old -x -a '(__protogate_files --old-dir)' -d 'the old text, or a descriptor set'
    complete -c protogate -n $is_it -l new -x -a '(__protogate_files --new-dir)' -d 'the new text, or a descriptor set'
end
complete -c protogate -n '__fish_seen_subcommand_from gate show' -l type -x -d 'the full name of the message type'
complete -c protogate -n '__fish_seen_subcommand_from gate gate-all' -l view -x -a 'numbers names' -d 'how enums are compared'
complete -c protogate -n '__fish_seen_subcommand_from gate' -l both -d 'ask for both directions'
complete -c protogate -n '__fish_seen_subcommand_from gate gate-all' -l explain -d 'show what breaks as both sides read it'
complete -c protogate -n '__fish_seen_subcommand_from gate-all' -l notes -d 'note what else changed'
complete -c protogate -n '__fish_seen_subcommand_from gate' -l cert -d 'print the certificate'
complete -c protogate -n '__fish_seen_subcommand_from gate gate-all verify show types' -l json -d 'print each line as a JSON object'
complete -c protogate -n '__fish_seen_subcommand_from compile show types' -l dir -x -a '(__fish_complete_directories)' -d 'the folder of the files'
complete -c protogate -n '__fish_seen_subcommand_from compile show types' -l include -x -a '(__fish_complete_directories)' -d 'an included folder of the files'
complete -c protogate -n '__fish_seen_subcommand_from compile types' -l files-from -r -F -d 'a list of further files'
complete -c protogate -n '__fish_seen_subcommand_from gate-all' -l old-files-from -r -F -d 'a list of further old files'
complete -c protogate -n '__fish_seen_subcommand_from gate-all' -l new-files-from -r -F -d 'a list of further new files'
complete -c protogate -n '__fish_seen_subcommand_from show' -l file -x -a '(__protogate_files --dir)' -d 'a text, or a descriptor set'
complete -c protogate -n '__fish_seen_subcommand_from compile types' -a '(__protogate_files --dir)'
complete -c protogate -n '__fish_seen_subcommand_from verify' -F
