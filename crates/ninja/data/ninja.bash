# Completion of the stand-in for ninja for bash: options, tools, folders, files, and the targets that it tells itself.
_ninja() {
    local word=${COMP_WORDS[COMP_CWORD]} before=${COMP_WORDS[COMP_CWORD - 1]} program=${COMP_WORDS[0]}
    local options='-C -f -j -k -l -n -v -d -t -w -h --help --quiet --verbose --version'
    local folder=. file=build.ninja place
    COMPREPLY=()
    case $before in
        -C) mapfile -t COMPREPLY < <(compgen -d -- "$word"); return ;;
        -f) mapfile -t COMPREPLY < <(compgen -f -- "$word"); return ;;
        -d) mapfile -t COMPREPLY < <(compgen -W 'stats explain keepdepfile keeprsp list' -- "$word"); return ;;
        -t) mapfile -t COMPREPLY < <(compgen -W "$("$program" -t list 2> /dev/null | sed -n 's/^ *\([a-z-]*\)  .*/\1/p') list" -- "$word"); return ;;
        -j | -k | -l | -w) return ;;
    esac
    if [[ $word == -* ]]; then
        mapfile -t COMPREPLY < <(compgen -W "$options" -- "$word")
        return
    fi
    for ((place = 1; place < COMP_CWORD; place++)); do
        case ${COMP_WORDS[place]} in
            -C) folder=${COMP_WORDS[place + 1]} ;;
            -C?*) folder=${COMP_WORDS[place]#-C} ;;
            -f) file=${COMP_WORDS[place + 1]} ;;
            -f?*) file=${COMP_WORDS[place]#-f} ;;
        esac
    done
    mapfile -t COMPREPLY < <(compgen -W "$("$program" -C "$folder" -f "$file" -t targets all 2> /dev/null | sed 's/: [^:]*$//')" -- "$word")
}
complete -F _ninja ninja
