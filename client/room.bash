# bash completion for `room`: what the client says may stand there, and files here where its status is 10.

# (what is typed is quoted by backslashes, by somebody or by an earlier completion; but bash leaves $ and ` in what is
# completed as they are, by which a name that another user chose would be a command, so such names are left out)
_room() {
    local each found status=0 begin=${COMP_WORDS[COMP_CWORD]//\\/}
    COMPREPLY=()
    found=$(ROOM_COMPLETE=$begin "${COMP_WORDS[@]:0:COMP_CWORD}" 2>/dev/null </dev/null) || status=$?
    while read -r each; do
        [[ -z $each || $each == *[\$\`]* ]] || COMPREPLY+=("$each")
    done <<<"$found"
    [[ ${#COMPREPLY[@]} != 1 || ${COMPREPLY[0]} != */ ]] || compopt -o nospace 2>/dev/null || true
    [ "$status" = 10 ] || return 0
    while read -r each; do
        COMPREPLY+=("$each")
    done < <(compgen -f -- "${COMP_WORDS[COMP_CWORD]}")
}

complete -o filenames -o bashdefault -F _room room
