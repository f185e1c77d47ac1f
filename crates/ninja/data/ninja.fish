# Completion of the stand-in for ninja for fish: options, tools, folders, files, and the targets that it tells itself.
function __ninja_targets
    set -l words (commandline -opc)
    set -l folder .
    set -l file build.ninja
    for place in (seq (count $words))
        switch $words[$place]
            case -C
                set folder $words[(math $place + 1)]
            case -f
                set file $words[(math $place + 1)]
        end
    end
    $words[1] -C $folder -f $file -t targets all 2> /dev/null | string replace -r ': [^:]*$' ''
end

function __ninja_tools
    set -l words (commandline -opc)
    $words[1] -t list 2> /dev/null | string match -rg '^ *([a-z-]+)  '
end

complete -c ninja -f -a '(__ninja_targets)'
complete -c ninja -s C -x -a '(__fish_complete_directories)' -d 'Take all paths from this folder, and run commands there'
complete -c ninja -s f -r -F -d 'The build file'
complete -c ninja -s j -x -d 'How many commands run at once, 0 for no limit'
complete -c ninja -s k -x -d 'Start nothing more after so many failures, 0 for no limit'
complete -c ninja -s l -x -d 'Start nothing while the load is above this'
complete -c ninja -s n -d 'Run nothing'
complete -c ninja -s d -x -a 'stats explain keepdepfile keeprsp list' -d 'A mode'
complete -c ninja -s t -x -a '(__ninja_tools)' -d 'Run a tool'
complete -c ninja -s w -x -d 'A flag of warnings'
complete -c ninja -s v -l verbose -d 'Show commands in place of descriptions'
complete -c ninja -l quiet -d 'Show no lines, only what commands print'
complete -c ninja -l version -d 'Print the version of ninja up to which build files are read'
complete -c ninja -s h -l help -d 'Print help'
