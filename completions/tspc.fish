# fish completion for tspc
set -l commands solve verify tour bench replay bound checkbound
complete -c tspc -n "not __fish_seen_subcommand_from $commands" -f
complete -c tspc -n "not __fish_seen_subcommand_from $commands" -a solve -d 'A shortest tour and its proof, or a restart file'
complete -c tspc -n "not __fish_seen_subcommand_from $commands" -a verify -d 'Whether a file is a proof'
complete -c tspc -n "not __fish_seen_subcommand_from $commands" -a tour -d 'A good tour at once'
complete -c tspc -n "not __fish_seen_subcommand_from $commands" -a bench -d 'Solve a pseudo-random instance'
complete -c tspc -n "not __fish_seen_subcommand_from $commands" -a replay -d 'What the boss answers to a tape of events'
complete -c tspc -n "not __fish_seen_subcommand_from $commands" -a bound -d 'A lower bound and its certificate'
complete -c tspc -n "not __fish_seen_subcommand_from $commands" -a checkbound -d 'Whether a file is such a certificate'
complete -c tspc -n '__fish_seen_subcommand_from solve replay' -l budget -x -d 'Nodes to close or split at most'
complete -c tspc -n '__fish_seen_subcommand_from solve' -l resume -d 'Go on from the restart body'
complete -c tspc -n '__fish_seen_subcommand_from solve' -l gap -x -d 'By how much the tour may miss a shortest one'
complete -c tspc -n '__fish_seen_subcommand_from solve replay' -l grunts -x -d 'Threads that work on nodes'
complete -c tspc -n '__fish_seen_subcommand_from solve' -l lose -x -d 'Throw away the reports on so many nodes'
complete -c tspc -n '__fish_seen_subcommand_from solve' -l twice -d 'Post each report twice'
complete -c tspc -n '__fish_seen_subcommand_from solve' -l late -d 'Post each report late'
complete -c tspc -n '__fish_seen_subcommand_from solve tour' -l seed -x -d 'Seed of the tour search'
complete -c tspc -n '__fish_seen_subcommand_from bound' -l steps -x -d 'Steps of the ascent'
