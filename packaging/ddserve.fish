# Completion of ddserve for fish.

# The names of tags that the list in the word lacks so far, behind what stands of it.
function __ddserve_tags
    set -l word (string replace -- --tags= '' (commandline -ct))
    set -l list (string replace -r '[^,]*$' '' -- $word)
    for name in DoubleDummyTricks OptimumScore ParContract OptimumResultTable
        string match -q -- "*,$name,*" ",$list"; or echo $list$name
    end
end

set -l commands solve serve pbn help
complete -c ddserve -f
complete -c ddserve -n "not __fish_seen_subcommand_from $commands" -a solve -d 'answer lines of the input'
complete -c ddserve -n "not __fish_seen_subcommand_from $commands" -a serve -d 'serve clients'
complete -c ddserve -n "not __fish_seen_subcommand_from $commands" -a pbn -d 'fill a file of PBN'
complete -c ddserve -n "not __fish_seen_subcommand_from $commands" -a help -d 'show help of a command'
complete -c ddserve -n "not __fish_seen_subcommand_from $commands" -l version -d 'show the version'
complete -c ddserve -l help -d 'show help'

complete -c ddserve -n '__fish_seen_subcommand_from help' -a 'solve serve pbn'

complete -c ddserve -n '__fish_seen_subcommand_from solve' -l budget -x -d 'the most positions for a line'
complete -c ddserve -n '__fish_seen_subcommand_from solve' -l entries -x -d 'the entries of the table'
complete -c ddserve -n '__fish_seen_subcommand_from solve' -l workers -x -d 'the threads that answer lines'
complete -c ddserve -n '__fish_seen_subcommand_from solve' -l explain -d 'ids and words of faults'

complete -c ddserve -n '__fish_seen_subcommand_from serve' -l listen -x -d 'the address to listen at'
complete -c ddserve -n '__fish_seen_subcommand_from serve' -l websocket -d 'each connection is a WebSocket'
complete -c ddserve -n '__fish_seen_subcommand_from serve' -l workers -x -d 'the threads that search'
complete -c ddserve -n '__fish_seen_subcommand_from serve' -l shards -x -d 'the parts of the table'
complete -c ddserve -n '__fish_seen_subcommand_from serve' -l entries -x -d 'the entries of each part'
complete -c ddserve -n '__fish_seen_subcommand_from serve' -l budget -x -d 'the most positions for each job'
complete -c ddserve -n '__fish_seen_subcommand_from serve' -l events -x -d 'the most events of a run'
complete -c ddserve -n '__fish_seen_subcommand_from serve' -l idle -x -d 'how long a connection may be silent'
complete -c ddserve -n '__fish_seen_subcommand_from serve' -l allow-stop -d 'clients may stop the program'
complete -c ddserve -n '__fish_seen_subcommand_from serve' -l explain -d 'ids and words of faults'

complete -c ddserve -n '__fish_seen_subcommand_from pbn' -l tags -x -a '(__ddserve_tags)' -d 'the tags to add'
complete -c ddserve -n '__fish_seen_subcommand_from pbn' -l budget -x -d 'the most positions for each result'
complete -c ddserve -n '__fish_seen_subcommand_from pbn' -l entries -x -d 'the entries of the table'
complete -c ddserve -n '__fish_seen_subcommand_from pbn' -l workers -x -d 'the threads that search'
