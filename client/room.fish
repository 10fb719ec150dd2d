# fish completion for `room`: what the client says may stand there, and files here where its status is 10.
function __room
    set -l words (commandline -opc)
    env ROOM_COMPLETE=(commandline -ct) $words 2>/dev/null </dev/null
    test $status -ne 10; or __fish_complete_path (commandline -ct)
end

complete -c room -f -a "(__room)"
