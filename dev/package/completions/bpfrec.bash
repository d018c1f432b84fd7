# bash completion for bpfrec, which says itself what it takes

_bpfrec() {
    local IFS=$'\n'
    compopt -o filenames -o nosort 2> /dev/null
    mapfile -t COMPREPLY < <("$1" complete "${COMP_WORDS[@]:1:COMP_CWORD}" 2> /dev/null)
    [[ ${COMPREPLY[0]-} != */ ]] || compopt -o nospace 2> /dev/null
}

complete -F _bpfrec bpfrec
