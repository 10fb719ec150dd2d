#compdef room
# zsh completion for `room`: what the client says may stand there, and files here where its status is 10.
local told
told="$(ROOM_COMPLETE=${(Q)PREFIX} $words[1,CURRENT-1] 2>/dev/null </dev/null)"
(( $? != 10 )) || _files
local -a found=(${(f)told})
compadd -- ${found:#*/}
compadd -S '' -- ${(M)found:#*/}
