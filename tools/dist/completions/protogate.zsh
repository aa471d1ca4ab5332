#compdef protogate
# Completions of protogate for zsh.

# Files below the folder that an option names, by their paths from there. The option is the last word: others come from _arguments.
_protogate_files() {
    local folder=${(Q)${opt_args[$argv[-1]]:-.}}
    folder=${folder/#\~/$HOME}
    _files -W "${folder:a}"
}

_protogate() {
    local -A opt_args
    local state line context
    local -a folders=(
        '--old-dir[the folder of the old files]:folder:_files -/'
        '--new-dir[the folder of the new files]:folder:_files -/'
        '*--old-include[an included folder of the old files]:folder:_files -/'
        '*--new-include[an included folder of the new files]:folder:_files -/'
    )
    local -a old_and_new=(
        $folders
        '--old[the old text, or a descriptor set]:file:_protogate_files --old-dir'
        '--new[the new text, or a descriptor set]:file:_protogate_files --new-dir'
    )
    local listed='--files-from[a list of further files]:list:_files'
    local as_json='--json[print each line as a JSON object]'
    if ((CURRENT == 2)); then
        local -a commands=(
            'compile:write the descriptor set of texts'
            'gate:find whether a changed message type may be released'
            'gate-all:find what breaks in all message types, and why'
            'verify:check a certificate'
            'show:show what bytes are read as'
            'types:name the message types of files'
        )
        _describe command commands
        _arguments '--help[print help]' '--version[print the version]'
        return
    fi
    local command=$words[2]
    shift words
    ((CURRENT--))
    case $command in
        compile)
            _arguments '--help[print help]' '--dir[the folder of the files]:folder:_files -/' $listed \
                '*--include[an included folder of the files]:folder:_files -/' '*:file:_protogate_files --dir'
            ;;
        types)
            _arguments '--help[print help]' '--dir[the folder of the files]:folder:_files -/' $listed $as_json \
                '*--include[an included folder of the files]:folder:_files -/' '*:file:_protogate_files --dir'
            ;;
        gate)
            _arguments '--help[print help]' $old_and_new '--type[the full name of the message type]:type: ' \
                '--view[how enums are compared]:view:(numbers names)' '--both[ask for both directions]' '--cert[print the certificate]' \
                '--explain[show what breaks as both sides read it]' $as_json
            ;;
        gate-all)
            _arguments '--help[print help]' $folders '*--old[an old text, or the descriptor set]:file:_protogate_files --old-dir' \
                '*--new[a new text, or the descriptor set]:file:_protogate_files --new-dir' \
                '--old-files-from[a list of further old files]:list:_files' '--new-files-from[a list of further new files]:list:_files' \
                '--view[how enums are compared]:view:(numbers names)' '--explain[show what breaks as both sides read it]' \
                '--notes[note what else changed]' $as_json
            ;;
        verify) _arguments '--help[print help]' $old_and_new $as_json ':certificate:_files' ;;
        show)
            _arguments '--help[print help]' '--dir[the folder of the file]:folder:_files -/' \
                '*--include[an included folder of the file]:folder:_files -/' \
                '--file[a text, or a descriptor set]:file:_protogate_files --dir' '--type[the full name of the message type]:type: ' \
                $as_json ':bytes in hexadecimal digits: '
            ;;
    esac
}

_protogate "$@"
