# Completion of nj for bash: options, folders, files, and the outputs that the build file names.
_nj() {
    local word=${COMP_WORDS[COMP_CWORD]} before=${COMP_WORDS[COMP_CWORD - 1]}
    local options='-C -f -j -k -v --why --audit --audit-all -h --help'
    local folder=. file=build.ninja place
    COMPREPLY=()
    case $before in
        -C) mapfile -t COMPREPLY < <(compgen -d -- "$word"); return ;;
        -f) mapfile -t COMPREPLY < <(compgen -f -- "$word"); return ;;
        -j | -k) return ;;
    esac
    if [[ $word == -* ]]; then
        mapfile -t COMPREPLY < <(compgen -W "$options" -- "$word")
        return
    fi
    for ((place = 1; place < COMP_CWORD; place++)); do
        case ${COMP_WORDS[place]} in
            -C) folder=${COMP_WORDS[place + 1]} ;;
            -C?*) folder=${COMP_WORDS[place]#-C} ;;
            -f) file=${COMP_WORDS[place + 1]} ;;
            -f?*) file=${COMP_WORDS[place]#-f} ;;
        esac
    done
    mapfile -t COMPREPLY < <(compgen -W "$(sed -n 's/^build \([^:|$]*\).*:.*/\1/p' "$folder/$file" 2> /dev/null)" -- "$word")
}
complete -F _nj nj
