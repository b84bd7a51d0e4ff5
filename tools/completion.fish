# Completion of teredo's words for fish: commands, files, and the options of the tools.
# In a checkout: source tools/completion.fish. Else as teredo.fish in a folder of $fish_complete_path.
set -l words lab nested reach gen show wire audit explain serve qualify lint trace follow state flow json csv play check generated explore sweep web page meet pairs capture build
set -l files lab nested reach wire audit explain lint trace follow state flow json csv play check explore sweep web page meet capture

function __teredo_first
    test (count (commandline -opc)) -eq 1
end

function __teredo_of
    set -l typed (commandline -opc)
    test (count $typed) -gt 1; and contains -- $typed[2] $argv
end

# Whether the word is one of the two behind --scenario.
function __teredo_pair
    set -l typed (commandline -opc)
    test "$typed[2]" = pairs; and contains -- --scenario $typed[-1] $typed[-2]
end

function __teredo_addresses
    ip -4 -o address 2>/dev/null | awk '{sub(/\/.*/, "", $4); print $4}'
end

# Options of these commands: `none` behind the name of one that has no value of its own.
function __teredo_options
    set -l commands (string split , $argv[1])
    for option in $argv[2..-1]
        set -l name (string split : $option)
        if test (count $name) -gt 1
            complete -c teredo -n "__teredo_of $commands" -l $name[1]
        else
            complete -c teredo -n "__teredo_of $commands" -l $name[1] -x
        end
    end
end

complete -c teredo -f
complete -c teredo -n __teredo_first -a "$words help"
complete -c teredo -n __teredo_first -l version
complete -c teredo -l help
complete -c teredo -n '__teredo_of help' -a "$words"
complete -c teredo -n "__teredo_of $files" -F
complete -c teredo -n '__teredo_of serve audit explain qualify' -a '(__teredo_addresses)'
complete -c teredo -n __teredo_pair -a 'cone restricted port symmetric native'
complete -c teredo -n '__teredo_of lint json csv play trace follow state flow explore sweep web page check capture' -l program -r
__teredo_options lint,json,csv,play,trace,follow,state,flow,explore chain
__teredo_options trace event packets:none
__teredo_options follow packet lines:none json:none
__teredo_options state at node json:none
__teredo_options flow svg:none wide:none narrow:none ends:none from to nodes
__teredo_options explore event lose repeat most jobs
__teredo_options sweep set seeds lose delay shard plot resume:none jobs
__teredo_options web port no-browser:none
__teredo_options check write:none
__teredo_options pairs check:none scenario:none no-cone:none
__teredo_options capture to judge overlap
__teredo_options build jobs
complete -c teredo -n '__teredo_of sweep page' -l out -r
