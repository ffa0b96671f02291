# Completions of pulsefarm-erl for fish: a copy in ~/.config/fish/completions, or in the folder that fish reads for packages.

set -l commands translate check run hunt explore shrink chart eunit prop

complete -c pulsefarm-erl -n "not __fish_seen_subcommand_from $commands" -f -a "$commands --help --version"
complete -c pulsefarm-erl -n "__fish_seen_subcommand_from $commands" -s I -r
complete -c pulsefarm-erl -n "__fish_seen_subcommand_from $commands" -s D -r
complete -c pulsefarm-erl -n "__fish_seen_subcommand_from $commands" -l root -r
complete -c pulsefarm-erl -n "__fish_seen_subcommand_from $commands" -l never -r
complete -c pulsefarm-erl -n "__fish_seen_subcommand_from $commands" -l patience -x -a 'early mixed 0'
complete -c pulsefarm-erl -n "__fish_seen_subcommand_from $commands" -l calls -r
complete -c pulsefarm-erl -n "__fish_seen_subcommand_from $commands" -l lax

complete -c pulsefarm-erl -n "__fish_seen_subcommand_from translate" -s o -r

complete -c pulsefarm-erl -n "__fish_seen_subcommand_from check" -l explain
complete -c pulsefarm-erl -n "__fish_seen_subcommand_from check" -l format -x -a 'text json'

complete -c pulsefarm-erl -n "__fish_seen_subcommand_from run" -l property -x -a 'sound supervised returns true nocrash nodeadlock withinlimit never:'
complete -c pulsefarm-erl -n "__fish_seen_subcommand_from run" -l limit -r
complete -c pulsefarm-erl -n "__fish_seen_subcommand_from run" -l seed -r
complete -c pulsefarm-erl -n "__fish_seen_subcommand_from run" -l schedule -r
complete -c pulsefarm-erl -n "__fish_seen_subcommand_from run" -l strategy -x -a 'pos uniform'
complete -c pulsefarm-erl -n "__fish_seen_subcommand_from run" -l weights -r
complete -c pulsefarm-erl -n "__fish_seen_subcommand_from run" -l edition -r
complete -c pulsefarm-erl -n "__fish_seen_subcommand_from run" -l verbose
complete -c pulsefarm-erl -n "__fish_seen_subcommand_from run" -l explain
complete -c pulsefarm-erl -n "__fish_seen_subcommand_from run" -l one-node
complete -c pulsefarm-erl -n "__fish_seen_subcommand_from run" -l format -x -a 'text json'

complete -c pulsefarm-erl -n "__fish_seen_subcommand_from hunt" -l property -x -a 'sound supervised returns true nocrash nodeadlock withinlimit never:'
complete -c pulsefarm-erl -n "__fish_seen_subcommand_from hunt" -l limit -r
complete -c pulsefarm-erl -n "__fish_seen_subcommand_from hunt" -l seeds -r
complete -c pulsefarm-erl -n "__fish_seen_subcommand_from hunt" -l for -r
complete -c pulsefarm-erl -n "__fish_seen_subcommand_from hunt" -l strategy -x -a 'pos uniform'
complete -c pulsefarm-erl -n "__fish_seen_subcommand_from hunt" -l weights -r
complete -c pulsefarm-erl -n "__fish_seen_subcommand_from hunt" -l edition -r
complete -c pulsefarm-erl -n "__fish_seen_subcommand_from hunt" -l workers -r
complete -c pulsefarm-erl -n "__fish_seen_subcommand_from hunt" -l shrink -r
complete -c pulsefarm-erl -n "__fish_seen_subcommand_from hunt" -l all
complete -c pulsefarm-erl -n "__fish_seen_subcommand_from hunt" -l leaks
complete -c pulsefarm-erl -n "__fish_seen_subcommand_from hunt" -l all-roots
complete -c pulsefarm-erl -n "__fish_seen_subcommand_from hunt" -l fail-fast
complete -c pulsefarm-erl -n "__fish_seen_subcommand_from hunt" -l one-node
complete -c pulsefarm-erl -n "__fish_seen_subcommand_from hunt" -l verbose
complete -c pulsefarm-erl -n "__fish_seen_subcommand_from hunt" -l format -x -a 'text json'

complete -c pulsefarm-erl -n "__fish_seen_subcommand_from explore" -l property -x -a 'returns true nocrash nodeadlock withinlimit never:'
complete -c pulsefarm-erl -n "__fish_seen_subcommand_from explore" -l limit -r
complete -c pulsefarm-erl -n "__fish_seen_subcommand_from explore" -l budget -r
complete -c pulsefarm-erl -n "__fish_seen_subcommand_from explore" -l for -r
complete -c pulsefarm-erl -n "__fish_seen_subcommand_from explore" -l deviations -r
complete -c pulsefarm-erl -n "__fish_seen_subcommand_from explore" -l edition -r
complete -c pulsefarm-erl -n "__fish_seen_subcommand_from explore" -l verbose
complete -c pulsefarm-erl -n "__fish_seen_subcommand_from explore" -l format -x -a 'text json'

complete -c pulsefarm-erl -n "__fish_seen_subcommand_from shrink" -l property -x -a 'sound supervised returns true nocrash nodeadlock withinlimit never:'
complete -c pulsefarm-erl -n "__fish_seen_subcommand_from shrink" -l limit -r
complete -c pulsefarm-erl -n "__fish_seen_subcommand_from shrink" -l schedule -r
complete -c pulsefarm-erl -n "__fish_seen_subcommand_from shrink" -l runs -r
complete -c pulsefarm-erl -n "__fish_seen_subcommand_from shrink" -l edition -r
complete -c pulsefarm-erl -n "__fish_seen_subcommand_from shrink" -l verbose
complete -c pulsefarm-erl -n "__fish_seen_subcommand_from shrink" -l format -x -a 'text json'

complete -c pulsefarm-erl -n "__fish_seen_subcommand_from chart" -l property -x -a 'sound supervised returns true nocrash nodeadlock withinlimit never:'
complete -c pulsefarm-erl -n "__fish_seen_subcommand_from chart" -l limit -r
complete -c pulsefarm-erl -n "__fish_seen_subcommand_from chart" -l seed -r
complete -c pulsefarm-erl -n "__fish_seen_subcommand_from chart" -l schedule -r
complete -c pulsefarm-erl -n "__fish_seen_subcommand_from chart" -l strategy -x -a 'pos uniform'
complete -c pulsefarm-erl -n "__fish_seen_subcommand_from chart" -l weights -r
complete -c pulsefarm-erl -n "__fish_seen_subcommand_from chart" -l edition -r
complete -c pulsefarm-erl -n "__fish_seen_subcommand_from chart" -l page -r
complete -c pulsefarm-erl -n "__fish_seen_subcommand_from chart" -l compact
complete -c pulsefarm-erl -n "__fish_seen_subcommand_from chart" -l verbose

complete -c pulsefarm-erl -n "__fish_seen_subcommand_from eunit" -l property -x -a 'sound supervised returns true nocrash nodeadlock withinlimit never:'
complete -c pulsefarm-erl -n "__fish_seen_subcommand_from eunit" -l limit -r
complete -c pulsefarm-erl -n "__fish_seen_subcommand_from eunit" -l seeds -r
complete -c pulsefarm-erl -n "__fish_seen_subcommand_from eunit" -l for -r
complete -c pulsefarm-erl -n "__fish_seen_subcommand_from eunit" -l strategy -x -a 'pos uniform'
complete -c pulsefarm-erl -n "__fish_seen_subcommand_from eunit" -l weights -r
complete -c pulsefarm-erl -n "__fish_seen_subcommand_from eunit" -l edition -r
complete -c pulsefarm-erl -n "__fish_seen_subcommand_from eunit" -l workers -r
complete -c pulsefarm-erl -n "__fish_seen_subcommand_from eunit" -l test -r
complete -c pulsefarm-erl -n "__fish_seen_subcommand_from eunit" -l one-node
complete -c pulsefarm-erl -n "__fish_seen_subcommand_from eunit" -l junit -r

complete -c pulsefarm-erl -n "__fish_seen_subcommand_from prop" -l limit -r
complete -c pulsefarm-erl -n "__fish_seen_subcommand_from prop" -l seeds -r
complete -c pulsefarm-erl -n "__fish_seen_subcommand_from prop" -l tests -r
complete -c pulsefarm-erl -n "__fish_seen_subcommand_from prop" -l seed -r
complete -c pulsefarm-erl -n "__fish_seen_subcommand_from prop" -l strategy -x -a 'pos uniform'
complete -c pulsefarm-erl -n "__fish_seen_subcommand_from prop" -l weights -r
complete -c pulsefarm-erl -n "__fish_seen_subcommand_from prop" -l edition -r
complete -c pulsefarm-erl -n "__fish_seen_subcommand_from prop" -l workers -r
complete -c pulsefarm-erl -n "__fish_seen_subcommand_from prop" -l shrink -r
