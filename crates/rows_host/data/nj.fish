# Completion of nj for fish: options, folders, files, and the outputs that build.ninja names.
function __nj_targets
    set -l words (commandline -opc)
    set -l folder .
    set -l file build.ninja
    for place in (seq (count $words))
        switch $words[$place]
            case -C
                set folder $words[(math $place + 1)]
            case -f
                set file $words[(math $place + 1)]
        end
    end
    sed -n 's/^build \([^:|$]*\).*:.*/\1/p' $folder/$file 2> /dev/null | string split -n ' '
end

complete -c nj -f -a '(__nj_targets)'
complete -c nj -s C -x -a '(__fish_complete_directories)' -d 'Take all paths from this folder, and run commands there'
complete -c nj -s f -r -F -d 'The build file'
complete -c nj -s j -x -d 'How many commands run at once, 0 for no limit'
complete -c nj -s k -x -d 'Start nothing more after so many failures, 0 for no limit'
complete -c nj -s v -d 'Show commands in place of descriptions'
complete -c nj -l why -d 'Tell which commands are due, and why, and start nothing'
complete -c nj -l audit -d 'Trace commands, and tell what breaks a premise'
complete -c nj -l audit-all -d 'The same, and list each file outside of the folder'
complete -c nj -s h -l help -d 'Print help'
